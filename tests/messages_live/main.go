// Command messages_live compares how message_lines reads and writes messages with memberlist: its structs, and its
// codec, go-msgpack. tests/messages builds and runs it. It prints a line for each failed case, up to 20; the last
// line is 'N passed, M failed'.
package main

import (
	"bufio"
	"bytes"
	"encoding/hex"
	"fmt"
	"math/rand"
	"os"
	"os/exec"
	"strings"
)

const (
	written = 100000 // messages that memberlist's encoder writes, and as many in its new form
	mutated = 100000 // messages that are changed at random
	pieces  = 20000  // compound messages
)

var passed, failed int

func check(ok bool, format string, args ...interface{}) {
	if ok {
		passed++
		return
	}
	failed++
	if failed <= 20 {
		fmt.Printf("failed: "+format+"\n", args...)
	}
}

// answers runs the program on messages, one a line, and returns what it prints about each. Only a compound message
// has more than one line.
func answers(program string, messages [][]byte) []string {
	var input bytes.Buffer
	for _, message := range messages {
		input.WriteString(hex.EncodeToString(message))
		input.WriteByte('\n')
	}
	command := exec.Command(program)
	command.Stdin = &input
	command.Stderr = os.Stderr
	output, err := command.Output()
	if err != nil {
		fmt.Println("failed: the program:", err)
		os.Exit(1)
	}
	var all []string
	lines := bufio.NewScanner(bytes.NewReader(output))
	lines.Buffer(nil, 1<<24)
	var parts []string
	for lines.Scan() {
		line := lines.Text()
		parts = append(parts, line)
		if !strings.HasPrefix(line, "part ") {
			all = append(all, strings.Join(parts, "\n"))
			parts = nil
		}
	}
	if len(all) != len(messages) {
		fmt.Println("failed:", len(all), "answers for", len(messages), "messages")
		os.Exit(1)
	}
	return all
}

// reading compares messages that memberlist's encoder wrote in its old form (an empty field as text, and lengths in
// two bytes) or in its new one, and then reads with its decoder what the program wrote anew.
func reading(program string, random *rand.Rand, newForm bool) {
	var messages [][]byte
	var wanted []fields
	for i := 0; i < written; i++ {
		message := randomMessage(random)
		messages = append(messages, encode(message, newForm))
		wanted = append(wanted, message)
	}
	for i, answer := range answers(program, messages) {
		want := told(wanted[i])
		if !claimless(wanted[i]) {
			check(answer == want, "%x: %s, not %s", messages[i], answer, want)
			continue
		}
		cut := strings.LastIndexByte(answer, ' ')
		check(cut > 0 && answer[:cut] == want, "%x: %s, not %s", messages[i], answer, want)
		again, err := hex.DecodeString(answer[cut+1:])
		old := encode(wanted[i], false)
		check(err == nil && bytes.Equal(again, old), "written anew: %x, not %x", again, old)
		read, err := decodeMessage(again, memberlists())
		check(err == nil && told(read) == want, "read again: %x: %v", again, err)
	}
}

// mutating compares messages that were changed at random with memberlist's decoder. The program passes over a map in
// the value of an unknown key whatever its keys are.
func mutating(program string, random *rand.Rand) {
	var messages [][]byte
	for i := 0; i < mutated; i++ {
		messages = append(messages, strange(random))
	}
	read, refused, maps := 0, 0, 0
	for i, answer := range answers(program, messages) {
		message, err := decodeMessage(messages[i], memberlists())
		if err != nil {
			refused++
			message, err = decodeMessage(messages[i], listed())
			if err == nil {
				maps++
			}
		} else {
			read++
		}
		if err != nil {
			check(strings.HasPrefix(answer, "refused "), "%x: %s, but memberlist: %v", messages[i], answer, err)
			continue
		}
		if claimless(message) {
			answer = answer[:strings.LastIndexByte(answer, ' ')]
		}
		want := told(message)
		check(answer == want, "%x: %s, not %s", messages[i], answer, want)
	}
	fmt.Printf("memberlist reads %d changed messages and refuses %d, %d of these for the keys of a map that is passed over\n",
		read, refused, maps)
}

// compounds compares compound messages, whole and cut, with decodeCompoundMessage.
func compounds(program string, random *rand.Rand) {
	var messages [][]byte
	for i := 0; i < pieces; i++ {
		messages = append(messages, randomCompound(random))
	}
	for i, answer := range answers(program, messages) {
		want := compoundTold(messages[i])
		check(answer == want, "%x: %s, not %s", messages[i], answer, want)
	}
}

func main() {
	program := os.Args[1]
	reading(program, rand.New(rand.NewSource(1)), false)
	reading(program, rand.New(rand.NewSource(2)), true)
	mutating(program, rand.New(rand.NewSource(3)))
	compounds(program, rand.New(rand.NewSource(4)))
	fmt.Printf("%d passed, %d failed\n", passed, failed)
	if failed != 0 {
		os.Exit(1)
	}
}
