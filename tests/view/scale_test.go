package memberlist

import (
	"math/big"
	"testing"
	"time"
)

// thousandth is the least number whose decimal logarithm is at least this many thousandths.
func thousandth(of int64) int {
	power := new(big.Int).Exp(big.NewInt(10), big.NewInt(of), nil)
	low, high := int64(1), int64(1000000)
	for low < high {
		middle := (low + high) / 2
		if new(big.Int).Exp(big.NewInt(middle), big.NewInt(1000), nil).Cmp(power) < 0 {
			low = middle + 1
		} else {
			high = middle
		}
	}
	return int(low)
}

// TestScale compares the rules of crates/memberlist_member/specs/Scales.antt, in whole numbers, with memberlist's
// functions in floating point, for clusters of up to 100,000 members.
func TestScale(t *testing.T) {
	thousandths, digits, ten, doublings, end := 0, 0, 1, 1, thousandth(1)
	for n := 0; n <= 100000; n++ {
		for end <= n {
			thousandths++
			end = thousandth(int64(thousandths) + 1)
		}
		for ten <= n {
			ten *= 10
			digits++
		}
		for n > 16<<doublings {
			doublings++
		}
		scale := thousandths
		if scale < 1000 {
			scale = 1000
		}
		least := time.Duration(4*scale) * time.Millisecond
		if found := suspicionTimeout(4, n, time.Second); found != least {
			t.Fatalf("%d members are suspected for %v, and not %v", n, found, least)
		}
		if found := retransmitLimit(4, n); found != 4*digits {
			t.Fatalf("a broadcast among %d members is sent %d times, and not %d", n, found, 4*digits)
		}
		if found := pushPullScale(time.Second, n); found != time.Duration(doublings)*time.Second {
			t.Fatalf("%d members exchange tables each %v, and not %d s", n, found, doublings)
		}
	}
}
