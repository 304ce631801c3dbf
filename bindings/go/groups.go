package cqlp

// Group is a group of numbers, for Name.
type Group uint32

const (
	// GroupCode: what a call of the library answers, as BadText.
	GroupCode Group = 1
	// GroupStop: as Full.
	GroupStop Group = 2
	// GroupEnd: as cqlp check writes it: whole, cut, refused.
	GroupEnd Group = 3
	// GroupTag: as cqlp show writes it, as Frame.
	GroupTag Group = 4
	// GroupMark: as unset.
	GroupMark Group = 5
	// GroupOpcode: as QUERY.
	GroupOpcode Group = 6
	// GroupField: as PageSize.
	GroupField Group = 7
	// GroupKind: as varchar.
	GroupKind Group = 8
	// GroupReason: as BadOpcode.
	GroupReason Group = 9
	// GroupPhase: as Ready.
	GroupPhase Group = 10
	// GroupReply: as Dropped.
	GroupReply Group = 11
	// GroupLimit: the limit that a code is about, as text.
	GroupLimit Group = 12
	// GroupError: the code of an error, as Unavailable.
	GroupError Group = 13
	// GroupResult: the kind of a result, as SetKeyspace.
	GroupResult Group = 14
	// GroupConsistency: as LOCAL_QUORUM.
	GroupConsistency Group = 15
	// GroupBatch: the type of a batch, as unlogged.
	GroupBatch Group = 16
)
