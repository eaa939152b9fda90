package swimtab

// #include <swimtab.h>
import "C"

import (
	"errors"
	"runtime"
	"sync"
	"time"
	"unsafe"
)

// View is what a member of memberlist shows that hears what the view is told, at these times, by the rules of
// memberlist's state.go: a member that died or left may come back, and one that is suspected stays so until somebody
// refutes it or declares it dead. It is for a program among members that run memberlist; a Node is the other model.
//
// A time is that of any clock that never goes back, as time.Since(start), in whole microseconds; one below 0 is 0.
// Its methods may be called from any goroutine; a lock lets one call run at a time. The calls of a closed View return
// ErrNoNode. OpenView makes a View; do not copy it.
type View struct {
	lock   sync.Mutex
	handle C.swimtab_view
	member C.swimtab_view_data // what calls write to, under the lock
}

// OpenView opens a view that shows nobody yet. wait is for how long a member that died or left is remembered:
// memberlist's GossipToTheDeadTime, 30 seconds in a local network. Close frees it; so does the garbage collector, at
// some later time.
//
// Errors: ErrMemory.
func OpenView(wait time.Duration) (*View, error) {
	v := new(View)
	if err := done(C.swimtab_view_open(&v.handle, micros(wait))); err != nil {
		return nil, err
	}
	runtime.SetFinalizer(v, func(v *View) { v.Close() })
	return v, nil
}

// Close frees the view. Closing it again does nothing.
func (v *View) Close() error {
	v.lock.Lock()
	defer v.lock.Unlock()
	C.swimtab_view_close(&v.handle)
	return nil
}

// Take tells the view the claim of a message, not a compound one, that came at this time. Keys that memberlist does not
// know are passed over, and what is said of a name that the view does not know, but for an Alive, changes nothing. The
// member itself is a name like any other. If nothing changed, the event is EventNone.
//
// Errors: ErrWrongType if it makes no claim, or is a compound message; the fault at which reading the message stops;
// ErrMemory, ErrNoNode. Then nothing has changed.
func (v *View) Take(at time.Duration, message []byte) (Change, error) {
	first := filled(message)
	v.lock.Lock()
	defer v.lock.Unlock()
	told := C.swimtab_view_take(&v.handle, micros(at), unsafe.Pointer(&first[0]), size(message), &v.member)
	return v.change(told)
}

// TakeParts tells the view the claims among the parts of a message, one by one, and calls f for what each changed, until
// f returns false. Parts that make no claim are passed over. A bad part refuses only itself: f is called with its error.
// The view is not locked while f runs.
func (v *View) TakeParts(at time.Duration, message []byte, f func(Change, error) bool) {
	EachPart(message, func(part Message) bool {
		switch part.Kind() {
		case KindAlive, KindSuspect, KindDead:
			change, err := v.Take(at, part)
			return err == nil && change.Event == EventNone || f(change, err)
		}
		return true
	})
}

// Merge tells the view the records of a push/pull stream that came at this time, one by one, and calls f for what each
// changed. If f returns false, the records that are left are not told. The view is not locked while f runs.
//
// Errors: the fault at which reading the stream stops: ErrEnded if the bytes end before it does, after which more may
// help. Then nothing was told. ErrMemory, after which the stream may be merged again, and ErrNoNode.
func (v *View) Merge(at time.Duration, stream []byte, f func(Change) bool) error {
	if _, whole, err := new(Progress).Whole(stream); err != nil {
		return err
	} else if !whole {
		return ErrEnded
	}
	first := filled(stream)
	var progress C.swimtab_progress
	next := func() (Change, error) {
		v.lock.Lock()
		defer v.lock.Unlock()
		told := C.swimtab_view_merge(&v.handle, micros(at), &progress, unsafe.Pointer(&first[0]), size(stream), &v.member)
		return v.change(told)
	}
	for {
		change, err := next()
		if errors.Is(err, ErrNoItem) {
			return nil
		}
		if err != nil || change.Event != EventNone && !f(change) {
			return err
		}
	}
}

// Forget forgets the members that at this time have been dead, or have left, for longer than the wait, and returns how
// many these are. memberlist does it at the end of each round of its probes.
func (v *View) Forget(at time.Duration) int {
	v.lock.Lock()
	defer v.lock.Unlock()
	return int(C.swimtab_view_forget(&v.handle, micros(at)))
}

// Len returns how many members the view shows, those that died or left included, and 0 after Close.
func (v *View) Len() int {
	v.lock.Lock()
	defer v.lock.Unlock()
	return int(C.swimtab_view_count(&v.handle))
}

// Find returns the member of this name.
//
// Errors: ErrNoMember, ErrMemory, ErrNoNode.
func (v *View) Find(name string) (Shown, error) {
	text := textOf(name)
	v.lock.Lock()
	defer v.lock.Unlock()
	if err := done(C.swimtab_view_find(&v.handle, unsafe.Pointer(&text[0]), size(name), &v.member)); err != nil {
		return Shown{}, err
	}
	return v.shown(), nil
}

// After returns the first member whose name is above this one in byte order. So a walk over all members goes on where
// it was, whatever changes in between; it begins with an empty name. Each and All walk in this way.
//
// Errors: ErrNoMember, ErrNameTooLong, ErrMemory, ErrNoNode.
func (v *View) After(name string) (Shown, error) {
	v.lock.Lock()
	defer v.lock.Unlock()
	return v.after(name)
}

// after does what After does, under the lock.
func (v *View) after(name string) (Shown, error) {
	text := textOf(name)
	if err := done(C.swimtab_view_after(&v.handle, unsafe.Pointer(&text[0]), size(name), &v.member)); err != nil {
		return Shown{}, err
	}
	return v.shown(), nil
}

// Members returns all members as they are at one moment, in the byte order of their names.
//
// Errors: ErrMemory, ErrNoNode.
func (v *View) Members() ([]Shown, error) {
	v.lock.Lock()
	defer v.lock.Unlock()
	var members []Shown
	err := walk(v.after, func(member Shown) bool {
		members = append(members, member)
		return true
	})
	return members, err
}

// Each calls f for each member, in the byte order of their names, until f returns false. The view is not locked while f
// runs, so f may call its methods. f may or may not be called for a name that is new or forgotten meanwhile; for each
// other name it is called once.
//
// Errors: ErrMemory, ErrNoNode.
func (v *View) Each(f func(Shown) bool) error {
	return walk(v.After, f)
}

// walk calls f for each member that after returns, until f returns false.
func walk(after func(string) (Shown, error), f func(Shown) bool) error {
	member, err := after("")
	for err == nil && f(member) {
		member, err = after(member.Name)
	}
	if errors.Is(err, ErrNoMember) {
		return nil
	}
	return err
}

// Accusers returns the names of the members that suspect the member of this name, in the order in which they were heard.
//
// Errors: ErrNoMember, ErrMemory, ErrNoNode.
func (v *View) Accusers(name string) ([]string, error) {
	text, out := textOf(name), make([]byte, longest)
	v.lock.Lock()
	defer v.lock.Unlock()
	var names []string
	for {
		made := C.swimtab_view_accuser(&v.handle, unsafe.Pointer(&text[0]), size(name), C.size_t(len(names)),
			unsafe.Pointer(&out[0]), size(out))
		switch made.status {
		case C.SWIMTAB_DONE:
			names = append(names, string(out[:made.len]))
		case C.SWIMTAB_NO_ITEM:
			return names, nil
		default:
			return nil, done(made.status)
		}
	}
}

// Offer returns what the view shows as a push/pull stream for memberlist, with this user state at its end, or nil.
// Members without sound versions are left out, and those in the state Noted. A reply is the same stream, from before the
// other side's stream was merged.
//
// Errors: ErrUserTooLong, ErrTooManyRecords, ErrMemory, ErrNoNode.
func (v *View) Offer(join bool, user []byte) ([]byte, error) {
	state := filled(user)
	v.lock.Lock()
	defer v.lock.Unlock()
	var buffer C.swimtab_buffer
	status := C.swimtab_view_offer(&v.handle, C.bool(join), unsafe.Pointer(&state[0]), size(user), &buffer)
	return owned(&buffer, status)
}

// change returns what a call told, and the member that it copied.
func (v *View) change(told C.swimtab_told) (Change, error) {
	if err := done(told.status); err != nil || told.event == C.SWIMTAB_NO_EVENT {
		return Change{}, err
	}
	return Change{Event: Event(told.event), Member: v.shown()}, nil
}

// micros returns a time in microseconds.
func micros(at time.Duration) C.uint64_t {
	if at < 0 {
		return 0
	}
	return C.uint64_t(at.Microseconds())
}
