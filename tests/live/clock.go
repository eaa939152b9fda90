package main

import "time"

// lag is how much later than it was to this process ran.
type lag struct {
	at   time.Time
	late time.Duration
}

// clocks measures how late this process is, which sleeps for ten milliseconds at a time.
func (s *storm) clocks() {
	for {
		before := time.Now()
		time.Sleep(10 * time.Millisecond)
		late := time.Since(before) - 10*time.Millisecond
		if late > 20*time.Millisecond {
			s.lock.Lock()
			s.lateness = append(s.lateness, lag{time.Now(), late})
			s.lock.Unlock()
		}
	}
}

// latest returns by how much this process was late at most in so long a time until then.
func (s *storm) latest(then time.Time, long time.Duration) (most time.Duration) {
	s.lock.Lock()
	defer s.lock.Unlock()
	for _, each := range s.lateness {
		if since := then.Sub(each.at); since < long && since > -tick {
			most = max(most, each.late)
		}
	}
	return most
}

func max(a, b time.Duration) time.Duration {
	if a > b {
		return a
	}
	return b
}

// excuses returns whether this process was late by so much in the fifteen seconds until then that a busy machine is to
// blame: a member answers pings within half a second, and refutes a suspicion within four.
func (s *storm) excuses(then time.Time, more time.Duration) bool {
	if s.latest(then, 15*tick) <= more {
		return false
	}
	s.excused++
	return true
}
