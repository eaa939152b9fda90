//go:build go1.23

package swimtab

import "iter"

// All iterates over the members, as Each does: the table may change meanwhile.
func (n *Node) All() iter.Seq[Member] {
	return n.Each
}

// All iterates over the members, as Each does: they may change meanwhile. An error, which is ErrMemory or ErrNoNode,
// comes last, without a member.
func (v *View) All() iter.Seq2[Shown, error] {
	return func(yield func(Shown, error) bool) {
		if err := v.Each(func(member Shown) bool { return yield(member, nil) }); err != nil {
			yield(Shown{}, err)
		}
	}
}

// Changes iterates over the members whose names are noted, as NextChange does. The names that are not reached stay
// noted.
func (n *Node) Changes() iter.Seq[Member] {
	return func(yield func(Member) bool) {
		for member, ok := n.NextChange(); ok && yield(member); {
			member, ok = n.NextChange()
		}
	}
}

// Parts iterates over the parts of a message, as EachPart does.
func Parts(message []byte) iter.Seq[Message] {
	return func(yield func(Message) bool) {
		EachPart(message, yield)
	}
}
