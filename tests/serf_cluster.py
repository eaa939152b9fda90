# Runs a cluster of Serf agents for tests/serf_live, in namespaces of its own, which end with it:
#   unshare --mount --net --pid --fork --kill-child --mount-proc python3 serf_cluster.py web|sealed FOLDER PROGRAM
# Each agent has a network namespace, and all are on one bridge. What it leaves in FOLDER:
#   all.pcap        what passed the bridge
#   own.pcap        what the member that sends the queries sent to itself
#   members         a line of JSON for each answer of `serf members`: when it was asked for, when it was there, of whom
#   queries         a line for each query: the name, and how many acks and answers `serf query` or `serf keys` had
#   pulled, events  what swimwatch PROGRAM pulled from a member in the end
#   end             what Serf said of the members then, of the cluster with keys, of which one was killed a while before
#   log-N, said     what the agents and the commands said
import base64, json, os, signal, subprocess, sys, threading, time

kind, folder, program = sys.argv[1:]
name = {"web": "web", "sealed": "db"}[kind]
count = {"web": 6, "sealed": 3}[kind]
agents, answers, changed, over = {}, {}, threading.Condition(), threading.Event()

def path(name):
    return os.path.join(folder, name)

def run(*words):
    subprocess.run(words, check=True, stdin=subprocess.DEVNULL)

def inside(n, *words):
    return ("ip", "netns", "exec", "m%d" % n) + words

def network():
    run("mount", "-t", "tmpfs", "none", "/run")
    run("ip", "link", "set", "lo", "up")
    run("ip", "link", "add", "br0", "type", "bridge")
    run("ip", "link", "set", "br0", "up")
    run("ip", "addr", "add", "10.99.0.1/24", "dev", "br0")
    for n in range(1, count + 1):
        run("ip", "netns", "add", "m%d" % n)
        run("ip", "link", "add", "end%d" % n, "type", "veth", "peer", "name", "eth0", "netns", "m%d" % n)
        run("ip", "link", "set", "end%d" % n, "master", "br0", "up")
        run(*inside(n, "ip", "addr", "add", "10.99.0.%d/24" % (10 + n), "dev", "eth0"))
        run(*inside(n, "ip", "link", "set", "eth0", "up"))
        run(*inside(n, "ip", "link", "set", "lo", "up"))

def capture(name, *words):
    """Begins a capture, and waits until it has begun."""
    said = open(path("tcpdump." + name), "wb")
    tcpdump = subprocess.Popen(words + ("-U", "-s", "0", "-w", "-", "port 7946"), stdout=open(path(name), "wb"), stderr=said)
    while b"listening on" not in open(path("tcpdump." + name), "rb").read():
        assert tcpdump.poll() is None, "no capture"
        time.sleep(0.05)
    return tcpdump

def start(n):
    words = ["serf", "agent", "-node", "%s-%d" % (name, n), "-bind", "10.99.0.%d:7946" % (10 + n), "-log-level", "debug"]
    if n > 1:
        words += ["-join", "10.99.0.11"]
    if kind == "sealed":
        words += ["-keyring-file", path("keyring-%d" % n)]
    elif n <= 3:
        words += ["-event-handler", "query:load=echo 42"]
    agents[n] = subprocess.Popen(inside(n, *words), stdout=open(path("log-%d" % n), "ab"), stderr=subprocess.STDOUT)
    wait(1, **{"%s-%d" % (name, n): "alive"})

def kill(n):
    agents[n].kill()
    agents[n].wait()

def serf(n, *words):
    """Runs a command at an agent, and returns what it prints."""
    done = subprocess.run(inside(n, "serf", *words), stdout=subprocess.PIPE, stderr=subprocess.STDOUT)
    with open(path("said"), "ab") as said:
        said.write(repr(words).encode() + b" " + done.stdout)
    assert done.returncode == 0, (words, done.stdout)
    return done.stdout.decode()

def query(n, *words):
    """A query, and what it reported."""
    lines = serf(n, "query", "-timeout=1500ms", *words).splitlines()
    total = {line.split(":")[0]: line.split()[-1] for line in lines if line.startswith("Total ")}
    with open(path("queries"), "a") as out:
        print(words[-1], total.get("Total Acks", 0), total["Total Responses"], file=out)

def keys(word, key):
    """A change of the keyring, after which the members that have it are counted."""
    serf(1, "keys", "-%s=%s" % (word, key))
    with open(path("queries"), "a") as out:
        print("_serf_%s-key" % word, 0, count, file=out)

def ask(n, out):
    """Asks an agent for its members, again and again."""
    while not over.is_set():
        before = time.time()
        asked = subprocess.run(inside(n, "serf", "members", "-format=json"), stdout=subprocess.PIPE, stderr=subprocess.DEVNULL)
        after = time.time()
        if asked.returncode == 0:
            found = {member["name"]: member["status"] for member in json.loads(asked.stdout)["members"]}
            with changed:
                answers[n] = found
                changed.notify_all()
                print(json.dumps({"before": before, "after": after, "by": n, "members": found}), file=out, flush=True)
        over.wait(max(0, before + 0.8 - time.time()) if asked.returncode == 0 else 0.1)

def wait(n, **states):
    """Waits until an agent answers that these members are in these states; None means that it has no such member."""
    wanted = lambda: n in answers and all(answers[n].get(member) == state for member, state in states.items())
    with changed:
        assert changed.wait_for(wanted, 40), (states, answers)

def heard(n, event):
    """Waits until an event came to an agent."""
    for _ in range(400):
        if ("messageUserEventType: %s\n" % event).encode() in open(path("log-%d" % n), "rb").read():
            return
        time.sleep(0.05)
    assert False, event

def web():
    pause = lambda: time.sleep(1.2)
    for n in range(2, count + 1):
        start(n)
    # who began something is told from the fifth second of a capture on
    time.sleep(5)
    serf(2, "event", "deploy", "v1")
    heard(3, "deploy")
    serf(3, "event", "-coalesce=false", "restart")
    serf(3, "event", "blob", b"\xff\xfe\x01")
    heard(1, "blob")
    serf(1, "event", "größe", "zwölf")
    query(4, "load")
    query(4, "-relay-factor=2", "load")
    query(4, "-no-ack", "load")
    kill(5)
    kill(6)
    serf(2, "force-leave", "web-3")
    wait(1, **{"web-5": "failed", "web-6": "failed"})
    wait(2, **{"web-5": "failed", "web-6": "failed"})
    pause()
    serf(1, "force-leave", "web-5")
    pause()
    serf(4, "leave")
    pause()
    serf(2, "force-leave", "-prune", "web-6")
    pause()
    start(5)
    pause()
    pause()

def sealed():
    old, new = (base64.b64encode(os.urandom(32)).decode() for _ in range(2))
    for file, key in [("keyring-%d" % n, [old]) for n in (1, 2, 3)] + [("keys", [old, new]), ("old", [old])]:
        with open(os.open(path(file), os.O_CREAT | os.O_WRONLY, 0o600), "w") as out:
            json.dump(key, out)
    start(1)
    start(2)
    start(3)
    keys("install", new)
    keys("use", new)
    keys("remove", old)
    time.sleep(4)
    serf(2, "event", "rotated", "2")
    time.sleep(1.2)
    kill(3)
    wait(2, **{"db-3": "failed"})
    wait(1, **{"db-3": "failed"})
    serf(2, "force-leave", "db-3")
    time.sleep(1.2)
    start(3)
    time.sleep(1.2)
    serf(2, "leave")
    time.sleep(2)

def forgotten(n):
    """Kills a member, and waits until it is in memberlist's table no more: half a minute after its death, when all members
    were probed once more. Leaves what Serf says of the members."""
    kill(n)
    for _ in range(60):
        told = serf(1, "members", "-format=json")
        if {member["name"]: member["status"] for member in json.loads(told)["members"]}["%s-%d" % (name, n)] == "failed":
            break
        time.sleep(0.5)
    time.sleep(36)
    with open(path("end"), "w") as out:
        print(serf(1, "members", "-format=json"), file=out)

# the first process of a namespace is ended by no signal that it does not handle
signal.signal(signal.SIGALRM, lambda *_: print("the cluster took too long", flush=True) or os._exit(1))
signal.alarm(100)
os.environ["LC_ALL"] = "C.UTF-8"
network()
captures = [capture("all.pcap", "tcpdump", "-i", "br0"),
            capture("own.pcap", *inside({"web": 4, "sealed": 1}[kind], "tcpdump", "-i", "lo"))]
with open(path("members"), "w") as out:
    askers = [threading.Thread(target=ask, args=(n, out), daemon=True) for n in (1, 2)]
    for asker in askers:
        asker.start()
    if kind == "web":
        start(1)
    {"web": web, "sealed": sealed}[kind]()
    over.set()
    for asker in askers:
        asker.join()
for tcpdump in captures:
    tcpdump.send_signal(signal.SIGINT)
    tcpdump.wait()
if kind == "sealed":
    forgotten(3)
for file, words in ("pulled", []), ("events", ["--events"]):
    words = words + ["--key-file", path("keys")] if kind == "sealed" else words
    subprocess.run([program, "pull", *words, "10.99.0.11"], stdout=open(path(file), "wb"), stderr=subprocess.STDOUT)
