//! Calls, combined lists and groups written by hand: the scope's worked rows and edges.

/// Site values in the order of a site group, separated by spaces.
type SiteRow = &'static str;

/// What it shows, number of samples, sites, clip groups, reference groups; and, where they are not empty, `pos`, `end`, `ref` and `alt` of each
/// record, and `mindp` of its samples, from reading the documents.
pub struct HandCohort {
    pub shows: &'static str,
    pub samples: usize,
    pub sites: &'static [SiteRow],
    pub clip: Option<&'static [&'static str]>,
    pub reference: Option<&'static [&'static str]>,
    pub heads: &'static [&'static str],
    pub min_dps: &'static [&'static str],
}

const NONE: HandCohort = HandCohort {
    shows: "",
    samples: 2,
    sites: &[],
    clip: None,
    reference: None,
    heads: &[],
    min_dps: &[],
};

/// Letters without a reference: of the lowest-numbered sample whose taken site's REF reaches the position, else N.
pub const LETTERS: &[HandCohort] = &[
    HandCohort {
        shows: "document 01's case at 21, ACG to A at 20: C,*,<NON_REF>, PL unchanged",
        samples: 1,
        sites: &["0 c 20 22 ACG A,<NON_REF> 12 6 . 1,2,3 11,12,13,14,15,16"],
        heads: &["20 . ACG A,<NON_REF>", "21 . C *,<NON_REF>", "22 . G *,<NON_REF>"],
        ..NONE
    },
    HandCohort {
        shows: "the same with a reference, whose letters they are though a REF reaches",
        samples: 1,
        sites: &["0 c 20 22 ACG A,<NON_REF> 12 6 . 1,2,3 11,12,13,14,15,16"],
        reference: Some(&["c 21 TN"]),
        heads: &["20 . ACG A,<NON_REF>", "21 . T *,<NON_REF>", "22 . N *,<NON_REF>"],
        ..NONE
    },
    HandCohort {
        shows: "a lower-numbered block does not reach, the deletion does; behind it none does",
        sites: &[
            "0 c 8 14 T <NON_REF> 9 5 . 5,0 0,9,90",
            "1 c 10 12 ACG A,<NON_REF> 12 6 . 1,2,3 11,12,13,14,15,16",
        ],
        heads: &[
            "8 9 T <NON_REF>",
            "10 . ACG A,<NON_REF>",
            "11 . C *,<NON_REF>",
            "12 . G *,<NON_REF>",
            "13 14 N <NON_REF>",
        ],
        ..NONE
    },
    HandCohort {
        shows: "two deletions reach and differ: the lower-numbered sample's letter",
        sites: &[
            "0 c 5 8 ACGT A,<NON_REF> 12 6 . 1,2,3 11,12,13,14,15,16",
            "1 c 6 8 GAA G,<NON_REF> 13 7 . 4,5,6 1,2,3,4,5,6",
        ],
        heads: &["5 . ACGT A,<NON_REF>", "6 . GAA G,*,<NON_REF>", "7 . G *,<NON_REF>", "8 . T *,<NON_REF>"],
        ..NONE
    },
    HandCohort {
        shows: "the same with the samples changed about",
        sites: &[
            "1 c 5 8 ACGT A,<NON_REF> 12 6 . 1,2,3 11,12,13,14,15,16",
            "0 c 6 8 GAA G,<NON_REF> 13 7 . 4,5,6 1,2,3,4,5,6",
        ],
        heads: &["5 . ACGT A,<NON_REF>", "6 . GAA G,*,<NON_REF>", "7 . A *,<NON_REF>", "8 . A *,<NON_REF>"],
        ..NONE
    },
    HandCohort {
        shows: "the lower-numbered deletion ends first, and the other gives the letter behind it",
        sites: &[
            "1 c 4 7 TAGT T,<NON_REF> 12 6 . 1,2,3 11,12,13,14,15,16",
            "0 c 5 6 AC A,<NON_REF> 13 7 . 4,5,6 1,2,3,4,5,6",
        ],
        heads: &["4 . TAGT T,<NON_REF>", "5 . AC A,*,<NON_REF>", "6 . C *,<NON_REF>", "7 . T *,<NON_REF>"],
        ..NONE
    },
    HandCohort {
        shows: "an N of a REF that reaches is the letter, whatever a higher-numbered sample has there",
        sites: &[
            "1 c 4 6 TAC T,<NON_REF> 12 6 . 1,2,3 11,12,13,14,15,16",
            "0 c 5 7 ANG A,<NON_REF> 13 7 . 4,5,6 1,2,3,4,5,6",
        ],
        heads: &["4 . TAC T,<NON_REF>", "5 . ANG A,*,<NON_REF>", "6 . N *,<NON_REF>", "7 . G *,<NON_REF>"],
        ..NONE
    },
    HandCohort {
        shows: "a block cut by clip spans that touch: A, then N; the parts of unknown letter join",
        samples: 1,
        sites: &["0 c 5 19 A <NON_REF> 1 2 . 3,4 0,20,30"],
        clip: Some(&["c 5 8", "c 9 10", "c 11 14"]),
        heads: &["5 8 A <NON_REF>", "9 14 N <NON_REF>"],
        ..NONE
    },
    HandCohort {
        shows: "an unknown letter joins a block behind it whose own REF is N",
        samples: 1,
        sites: &[
            "0 c 1 4 A <NON_REF> 1 2 . 3,4 0,20,30",
            "0 c 5 6 N <NON_REF> 1 2 . 3,4 0,20,30",
        ],
        clip: Some(&["c 3 6"]),
        heads: &["3 6 N <NON_REF>"],
        ..NONE
    },
    HandCohort {
        shows: "an unknown letter joins a block before it whose own REF is N",
        samples: 1,
        sites: &["0 c 1 6 N <NON_REF> 1 2 . 3,4 0,20,30"],
        clip: Some(&["c 1 3", "c 4 6"]),
        heads: &["1 6 N <NON_REF>"],
        ..NONE
    },
    HandCohort {
        shows: "the deletion behind a SNP of its own sample gives its last letter",
        samples: 1,
        sites: &[
            "0 c 10 13 ACGT A,<NON_REF> 12 6 . 1,2,3 11,12,13,14,15,16",
            "0 c 12 12 G T,<NON_REF> 13 7 . 4,5,6 1,2,3,4,5,6",
        ],
        heads: &["10 . ACGT A,<NON_REF>", "11 . C *,<NON_REF>", "12 . G T,<NON_REF>", "13 . T *,<NON_REF>"],
        ..NONE
    },
    HandCohort {
        shows: "a superseded deletion gives no letter, a higher-numbered sample's does",
        sites: &[
            "0 c 5 10 ACGTAC A,<NON_REF> 12 6 . 1,2,3 11,12,13,14,15,16",
            "0 c 6 12 C <NON_REF> 2 3 . 4,0 0,20,30",
            "1 c 7 8 GA G,<NON_REF> 13 7 . 4,5,6 1,2,3,4,5,6",
        ],
        heads: &[
            "5 . ACGTAC A,<NON_REF>",
            "6 . C <NON_REF>",
            "7 . GA G,<NON_REF>",
            "8 . A *,<NON_REF>",
            "9 12 N <NON_REF>",
        ],
        ..NONE
    },
    HandCohort {
        shows: "a deletion up to 2147483647 gives its last letter, and a block from 1 on does not reach",
        sites: &[
            "0 c 1 2147483647 G <NON_REF> 1 2 . 3,4 0,20,30",
            "1 c 2147483645 2147483647 ACT A,<NON_REF> 12 6 . 1,2,3 11,12,13,14,15,16",
        ],
        heads: &[
            "1 2147483644 G <NON_REF>",
            "2147483645 . ACT A,<NON_REF>",
            "2147483646 . C *,<NON_REF>",
            "2147483647 . T *,<NON_REF>",
        ],
        ..NONE
    },
    HandCohort {
        shows: "blocks between another sample's SNPs: N and N do not touch, and do not join",
        sites: &[
            "0 c 5 9 A <NON_REF> 1 2 . 3,4 0,20,30",
            "1 c 6 6 C T,<NON_REF> 12 6 . 1,2,3 11,12,13,14,15,16",
            "1 c 8 8 C T,<NON_REF> 12 6 . 1,2,3 11,12,13,14,15,16",
        ],
        heads: &["5 . A <NON_REF>", "6 . C T,<NON_REF>", "7 . N <NON_REF>", "8 . C T,<NON_REF>", "9 . N <NON_REF>"],
        ..NONE
    },
];

/// Letters of either case, read as capitals.
pub const SPELLINGS: &[HandCohort] = &[
    HandCohort {
        shows: "document 01's printed example with REF a and ALT g: the same list",
        sites: &[
            "0 c 10 11 a <NON_REF> 30 9 . 9,0 0,30,300",
            "1 c 10 10 A g,<NON_REF> 40 8 . 4,4,0 40,0,50,60,70,80",
        ],
        heads: &["10 . A G,<NON_REF>", "11 . N <NON_REF>"],
        ..NONE
    },
    HandCohort {
        shows: "a to g and At to A: a is a prefix of At, and g grows by its t",
        sites: &[
            "0 c 5 5 a g,<NON_REF> 20 7 . 3,4,0 50,0,60,70,80,90",
            "1 c 5 6 At A,<NON_REF> 30 8 . 5,3,0 55,0,65,75,85,95",
        ],
        heads: &["5 . AT A,GT,<NON_REF>", "6 . T *,<NON_REF>"],
        ..NONE
    },
    HandCohort {
        shows: "G and g of two samples are one allele, aT and At too",
        sites: &[
            "0 c 5 5 A T,g,aT,<NON_REF> 20 7 . 1,2,3,4,5 1,2,3,4,5,6,7,8,9,10,11,12,13,14,15",
            "1 c 5 5 a At,G,<NON_REF> 30 8 . 5,6,7,8 21,22,23,24,25,26,27,28,29,30",
        ],
        heads: &["5 . A AT,G,T,<NON_REF>"],
        ..NONE
    },
    HandCohort {
        shows: "blocks alike but for the case of their letters join",
        samples: 1,
        sites: &[
            "0 c 10 12 a <NON_REF> 30 9 . 9,0 0,30,300",
            "0 c 13 15 A <NON_REF> 30 9 . 9,0 0,30,300",
            "0 c 16 16 a <NON_REF> 30 9 . 9,0 0,30,300",
            "0 c 17 17 c <NON_REF> 30 9 . 9,0 0,30,300",
        ],
        heads: &["10 16 A <NON_REF>", "17 . C <NON_REF>"],
        ..NONE
    },
    HandCohort {
        shows: "a reference of small letters: a joins A, c does not, of c and G over one position the first",
        samples: 1,
        sites: &["0 c 5 9 A <NON_REF> 1 2 . 3,4 0,20,30"],
        clip: Some(&["c 5 6", "c 7 7", "c 8 8", "c 9 9"]),
        reference: Some(&["c 8 c", "c 5 ttaGC"]),
        heads: &["5 7 A <NON_REF>", "8 9 C <NON_REF>"],
        ..NONE
    },
    HandCohort {
        shows: "without a reference: a small letter of a REF that reaches, and an unknown letter joins a block whose REF is n",
        samples: 1,
        sites: &[
            "0 c 1 3 acg a,<NON_REF> 12 6 . 1,2,3 11,12,13,14,15,16",
            "0 c 4 6 T <NON_REF> 1 2 . 3,4 0,20,30",
            "0 c 7 8 n <NON_REF> 1 2 . 3,4 0,20,30",
        ],
        clip: Some(&["c 1 4", "c 5 9"]),
        heads: &["1 . ACG A,<NON_REF>", "2 . C *,<NON_REF>", "3 . G *,<NON_REF>", "4 . T <NON_REF>", "5 8 N <NON_REF>"],
        ..NONE
    },
    HandCohort {
        shows: "sixteen merged alleles, three of them in either case",
        samples: 3,
        sites: &[
            "0 c 5 5 A C,G,T,AA,AC,<NON_REF> . . . . .",
            "1 c 5 5 a c,g,t,AG,aT,Ca,<NON_REF> . . . . .",
            "2 c 5 5 A cc,CG,cT,GA,Gc,gG,<NON_REF> . . . . .",
        ],
        heads: &["5 . A CC,CG,CT,GA,GC,GG,C,G,T,AG,AT,CA,AA,AC,<NON_REF>"],
        ..NONE
    },
    HandCohort {
        shows: "* is not lengthened beside small letters; aTt to A is a deletion, aTt to GCA is none",
        sites: &[
            "0 c 5 5 a *,g,<NON_REF> 20 7 . 3,4,0,1 50,0,60,70,80,90,91,92,93,94",
            "1 c 5 7 aTt A,gca,<NON_REF> 30 8 . 5,3,0,1 55,0,65,75,85,95,96,97,98,99",
        ],
        heads: &["5 . ATT A,GCA,GTT,*,<NON_REF>", "6 . T *,<NON_REF>", "7 . T *,<NON_REF>"],
        ..NONE
    },
    HandCohort {
        shows: "contigs keep their case: N, acgt, n",
        samples: 1,
        sites: &[
            "0 n 7 7 n <NON_REF> 1 2 . 3,4 0,20,30",
            "0 acgt 6 6 t <NON_REF> 1 2 . 3,4 0,20,30",
            "0 N 5 5 N <NON_REF> 1 2 . 3,4 0,20,30",
        ],
        heads: &["5 . N <NON_REF>", "6 . T <NON_REF>", "7 . N <NON_REF>"],
        ..NONE
    },
];

/// MIN_DP rides along, and blocks join only if it agrees.
pub const MIN_DPS: &[HandCohort] = &[
    HandCohort {
        shows: "blocks that agree in MIN_DP: one",
        samples: 1,
        sites: &[
            "0 c 10 12 A <NON_REF> 30 9 5 9,0 0,30,300",
            "0 c 13 15 A <NON_REF> 30 9 5 9,0 0,30,300",
        ],
        heads: &["10 15 A <NON_REF>"],
        min_dps: &["5"],
        ..NONE
    },
    HandCohort {
        shows: "MIN_DP differs, is missing, is there again: four, of which the last two blocks are one",
        samples: 1,
        sites: &[
            "0 c 10 12 A <NON_REF> 30 9 5 9,0 0,30,300",
            "0 c 13 15 A <NON_REF> 30 9 6 9,0 0,30,300",
            "0 c 16 16 A <NON_REF> 30 9 . 9,0 0,30,300",
            "0 c 17 17 A <NON_REF> 30 9 6 9,0 0,30,300",
            "0 c 18 18 A <NON_REF> 30 9 6 9,0 0,30,300",
        ],
        heads: &["10 12 A <NON_REF>", "13 15 A <NON_REF>", "16 . A <NON_REF>", "17 18 A <NON_REF>"],
        min_dps: &["5", "6", ".", "6"],
        ..NONE
    },
    HandCohort {
        shows: "DP and MIN_DP changed about, the one missing and the other, 1 and 23, 12 and 3: none join",
        samples: 1,
        sites: &[
            "0 c 1 2 A <NON_REF> 30 9 5 9,0 0,30,300",
            "0 c 3 4 A <NON_REF> 30 5 9 9,0 0,30,300",
            "0 c 5 5 A <NON_REF> 30 . 5 9,0 0,30,300",
            "0 c 6 6 A <NON_REF> 30 5 . 9,0 0,30,300",
            "0 c 7 7 A <NON_REF> 30 1 23 9,0 0,30,300",
            "0 c 8 8 A <NON_REF> 30 12 3 9,0 0,30,300",
        ],
        heads: &["1 2 A <NON_REF>", "3 4 A <NON_REF>", "5 . A <NON_REF>", "6 . A <NON_REF>", "7 . A <NON_REF>", "8 . A <NON_REF>"],
        min_dps: &["5", "9", "5", ".", "23", "3"],
        ..NONE
    },
    HandCohort {
        shows: "MIN_DP agrees and DP differs: two",
        samples: 1,
        sites: &[
            "0 c 10 12 A <NON_REF> 30 9 5 9,0 0,30,300",
            "0 c 13 15 A <NON_REF> 30 8 5 9,0 0,30,300",
        ],
        heads: &["10 12 A <NON_REF>", "13 15 A <NON_REF>"],
        min_dps: &["5", "5"],
        ..NONE
    },
    HandCohort {
        shows: "of three samples the second's MIN_DP alone differs: two",
        samples: 3,
        sites: &[
            "0 c 1 6 A <NON_REF> 31 8 4 9,0 0,30,300",
            "1 c 1 3 A <NON_REF> 31 8 4 9,0 0,30,300",
            "1 c 4 6 A <NON_REF> 31 8 5 9,0 0,30,300",
            "2 c 1 3 A <NON_REF> 31 8 4 9,0 0,30,300",
            "2 c 4 6 A <NON_REF> 31 8 4 9,0 0,30,300",
        ],
        heads: &["1 3 A <NON_REF>", "4 6 A <NON_REF>"],
        min_dps: &["4", "4", "4", "4", "5", "4"],
        ..NONE
    },
    HandCohort {
        shows: "a sample with nothing known, then without a site: the blocks join",
        sites: &[
            "0 c 10 12 A <NON_REF> 30 9 9 9,0 0,30,300",
            "0 c 13 15 A <NON_REF> 30 9 9 9,0 0,30,300",
            "1 c 10 12 A <NON_REF> . . . . .",
        ],
        heads: &["10 15 A <NON_REF>"],
        min_dps: &["9", "."],
        ..NONE
    },
    HandCohort {
        shows: "a sample with MIN_DP 0 and no more, then without a site: two",
        sites: &[
            "0 c 10 12 A <NON_REF> 30 9 9 9,0 0,30,300",
            "0 c 13 15 A <NON_REF> 30 9 9 9,0 0,30,300",
            "1 c 10 12 A <NON_REF> . . 0 . .",
        ],
        heads: &["10 12 A <NON_REF>", "13 15 A <NON_REF>"],
        min_dps: &["9", "0", "9", "."],
        ..NONE
    },
    HandCohort {
        shows: "MIN_DP above DP, 0 and 2147483647, seen along a deletion, with its last letters missing in another sample",
        samples: 3,
        sites: &[
            "2 c 21 21 C T,<NON_REF> 13 7 8 4,5,6 1,2,3,4,5,6",
            "0 c 20 22 ACG A,<NON_REF> 12 6 2147483647 1,2,3 11,12,13,14,15,16",
            "1 c 19 21 T <NON_REF> 9 5 0 5,0 0,9,90",
        ],
        heads: &["19 . T <NON_REF>", "20 . ACG A,<NON_REF>", "21 . C T,*,<NON_REF>", "22 . G *,<NON_REF>"],
        min_dps: &[".", "0", ".", "2147483647", "0", ".", "2147483647", "0", "8", "2147483647", ".", "."],
        ..NONE
    },
    HandCohort {
        shows: "of sites over each other MIN_DP is that of the one that starts last",
        samples: 1,
        sites: &[
            "0 c 5 8 ACGT A,<NON_REF> 1 2 3 3,4,5 9,8,7,6,5,4",
            "0 c 6 6 C T,<NON_REF> 1 2 4 3,4,5 9,8,7,6,5,4",
            "0 c 6 6 C T,<NON_REF> 1 2 5 3,4,5 9,8,7,6,5,4",
        ],
        heads: &["5 . ACGT A,<NON_REF>", "6 . C T,<NON_REF>", "7 . G *,<NON_REF>", "8 . T *,<NON_REF>"],
        min_dps: &["3", "4", "3", "3"],
        ..NONE
    },
    HandCohort {
        shows: "parts of a block with MIN_DP join by their letters, under a clip and a reference",
        samples: 1,
        sites: &["0 c 5 19 A <NON_REF> 1 2 7 3,4 0,20,30"],
        clip: Some(&["c 7 9", "c 10 12", "c 13 15"]),
        reference: Some(&["c 7 GTTGTTC"]),
        heads: &["7 12 G <NON_REF>", "13 15 C <NON_REF>"],
        min_dps: &["7", "7"],
        ..NONE
    },
];

/// Combined lists with MIN_DP, which no called list has: what it shows, and its text.
pub const MIN_DP_LISTS: &[(&str, &str)] = &[
    (
        "MIN_DP below, at and above DP, 2147483647 and missing: no line of the called list has it",
        "samples=5\nsample=S\nsample=T\nsample=U\nsample=V\nsample=W\nrecords=1\ncontig=c\npos=5\nend=.\nref=A\nalt=G,<NON_REF>\ngt=0/2\ngq=7\ndp=8\nmindp=6\nad=1,2,3\npl=90,80,70,10,20,30\ngt=0/0\ngq=7\ndp=9\nmindp=9\nad=.\npl=0,10,20,30,40,50\ngt=.\ngq=.\ndp=1\nmindp=2\nad=4,5,6\npl=.\ngt=.\ngq=.\ndp=.\nmindp=2147483647\nad=.\npl=1,2,3,4,5,6\ngt=.\ngq=.\ndp=3\nmindp=.\nad=.\npl=.\n",
    ),
    (
        "blocks that differ in MIN_DP, dropped, around a record with it",
        "samples=1\nsample=S\nrecords=3\ncontig=c\npos=1\nend=4\nref=A\nalt=<NON_REF>\ngt=0/0\ngq=7\ndp=8\nmindp=5\nad=1,2\npl=0,10,20\ncontig=c\npos=5\nend=.\nref=A\nalt=*,G,<NON_REF>\ngt=0/1\ngq=7\ndp=8\nmindp=0\nad=1,2,3,4\npl=9,0,8,7,6,5,4,3,2,1\ncontig=c\npos=6\nend=9\nref=A\nalt=<NON_REF>\ngt=0/0\ngq=7\ndp=8\nmindp=.\nad=1,2\npl=0,10,20\n",
    ),
];

/// Sites of one sample over each other: the one that starts last is taken, of equal starts the first in the file.
pub const NESTED: &[HandCohort] = &[
    HandCohort {
        shows: "a block and a deletion of one sample start together: the block is taken, the deletion gives breakpoints only",
        samples: 1,
        sites: &[
            "0 c 5 9 A <NON_REF> 1 2 . 3,4 0,20,30",
            "0 c 5 7 ACG A,<NON_REF> 2 3 . 4,5,6 1,2,3,4,5,6",
        ],
        ..NONE
    },
    HandCohort {
        shows: "the same in the other order: the deletion is taken, and behind it the block",
        samples: 1,
        sites: &[
            "0 c 5 7 ACG A,<NON_REF> 2 3 . 4,5,6 1,2,3,4,5,6",
            "0 c 5 9 A <NON_REF> 1 2 . 3,4 0,20,30",
        ],
        ..NONE
    },
    HandCohort {
        shows: "nested three deep, and a sample beside it",
        sites: &[
            "0 c 5 12 ACGTACGT A,<NON_REF> 1 2 . 3,4,5 9,8,7,6,5,4",
            "0 c 7 10 GTAC G,<NON_REF> 2 3 . 4,5,6 1,2,3,4,5,6",
            "0 c 8 8 T A,<NON_REF> 3 4 . 5,6,7 20,0,30,40,50,60",
            "1 c 4 14 T <NON_REF> 4 5 . 6,0 0,12,120",
        ],
        ..NONE
    },
    HandCohort {
        shows: "the same with the sites in descending order",
        sites: &[
            "1 c 4 14 T <NON_REF> 4 5 . 6,0 0,12,120",
            "0 c 8 8 T A,<NON_REF> 3 4 . 5,6,7 20,0,30,40,50,60",
            "0 c 7 10 GTAC G,<NON_REF> 2 3 . 4,5,6 1,2,3,4,5,6",
            "0 c 5 12 ACGTACGT A,<NON_REF> 1 2 . 3,4,5 9,8,7,6,5,4",
        ],
        ..NONE
    },
    HandCohort {
        shows: "a superseded deletion shows no * and gives no letter: C, then N; behind that its breakpoints part no block",
        samples: 1,
        sites: &[
            "0 c 5 10 ACGTAC A,<NON_REF> 1 2 . 3,4,5 9,8,7,6,5,4",
            "0 c 6 12 C <NON_REF> 2 3 . 4,0 0,20,30",
        ],
        ..NONE
    },
    HandCohort {
        shows: "the same beside another sample's deletion, with a reference whose letters part the block",
        sites: &[
            "0 c 5 10 ACGTAC A,<NON_REF> 1 2 . 3,4,5 9,8,7,6,5,4",
            "0 c 6 12 C <NON_REF> 2 3 . 4,0 0,20,30",
            "1 c 11 12 GG G,<NON_REF> 3 4 . 5,6,7 20,0,30,40,50,60",
        ],
        reference: Some(&["c 1 TTTTACGGGCGG"]),
        ..NONE
    },
    HandCohort {
        shows: "a clip that begins inside a deletion and a site in it",
        samples: 1,
        sites: &[
            "0 c 5 10 ACGTAC A,<NON_REF> 1 2 . 3,4,5 9,8,7,6,5,4",
            "0 c 7 8 GT G,<NON_REF> 2 3 . 4,5,6 1,2,3,4,5,6",
        ],
        clip: Some(&["c 8 9"]),
        ..NONE
    },
    HandCohort {
        shows: "four sites of one sample start together: the second in the file lies on another contig, the first is taken",
        samples: 1,
        sites: &[
            "0 c 5 6 AC A,<NON_REF> 1 2 . 3,4,5 9,8,7,6,5,4",
            "0 d 5 5 A <NON_REF> 2 3 . 4,0 0,20,30",
            "0 c 5 5 A T,<NON_REF> 3 4 . 5,6,7 20,0,30,40,50,60",
            "0 c 5 8 A <NON_REF> 4 5 . 6,0 0,12,120",
        ],
        ..NONE
    },
];

pub const COHORTS: &[HandCohort] = &[
    HandCohort {
        shows: "document 01's printed example, with Note 2's N",
        sites: &[
            "0 c 10 11 A <NON_REF> 30 9 . 9,0 0,30,300",
            "1 c 10 10 A G,<NON_REF> 40 8 . 4,4,0 40,0,50,60,70,80",
        ],
        ..NONE
    },
    HandCohort {
        shows: "no sites gives records=0",
        ..NONE
    },
    HandCohort {
        shows: "2147483647 is read, in every number",
        samples: 1,
        sites: &[
            "0 c 2147483646 2147483647 A <NON_REF> 2147483647 2147483647 . 2147483647,0 2147483647,2147483647,2147483647",
        ],
        ..NONE
    },
    HandCohort {
        shows: "a SNP at 2147483647",
        samples: 1,
        sites: &["0 c 2147483647 2147483647 A G,<NON_REF> 1 2 . 3,4,5 6,5,4,3,2,1"],
        ..NONE
    },
    HandCohort {
        shows: "A to G, then AT to A: AT,A,GT,<NON_REF>",
        sites: &[
            "0 c 5 5 A G,<NON_REF> 20 7 . 3,4,0 50,0,60,70,80,90",
            "1 c 5 6 AT A,<NON_REF> 30 8 . 5,3,0 55,0,65,75,85,95",
        ],
        ..NONE
    },
    HandCohort {
        shows: "the same with the samples changed about",
        sites: &[
            "1 c 5 5 A G,<NON_REF> 20 7 . 3,4,0 50,0,60,70,80,90",
            "0 c 5 6 AT A,<NON_REF> 30 8 . 5,3,0 55,0,65,75,85,95",
        ],
        ..NONE
    },
    HandCohort {
        shows: "ACG to A at 20, seen at 21 with a reference: C,*,<NON_REF>, PL unchanged",
        sites: &[
            "0 c 20 22 ACG A,<NON_REF> 12 6 . 1,2,3 11,12,13,14,15,16",
            "1 c 18 25 A <NON_REF> 9 5 . 5,0 0,9,90",
        ],
        reference: Some(&["c 15 TTTACACGTTTT"]),
        ..NONE
    },
    HandCohort {
        shows: "AC to GT, PL 1 to 6, seen one later: * maps to <NON_REF>",
        samples: 1,
        sites: &["0 c 8 9 AC GT,<NON_REF> 3 4 . 1,2,3 1,2,3,4,5,6"],
        ..NONE
    },
    HandCohort {
        shows: "PL 5,5,9 gives 0/0",
        samples: 1,
        sites: &["0 c 4 4 C <NON_REF> 0 2 . 2,0 5,5,9"],
        ..NONE
    },
    HandCohort {
        shows: "blocks 10 to 12 and 13 to 15, alike: one",
        samples: 1,
        sites: &[
            "0 c 10 12 A <NON_REF> 30 9 . 9,0 0,30,300",
            "0 c 13 15 A <NON_REF> 30 9 . 9,0 0,30,300",
        ],
        ..NONE
    },
    HandCohort {
        shows: "six blocks alike, of one position and more, then one that differs, then two alike",
        samples: 1,
        sites: &[
            "0 c 1 4 A <NON_REF> 30 9 . 9,0 0,30,300",
            "0 c 5 5 A <NON_REF> 30 9 . 9,0 0,30,300",
            "0 c 6 11 A <NON_REF> 30 9 . 9,0 0,30,300",
            "0 c 12 12 A <NON_REF> 30 9 . 9,0 0,30,300",
            "0 c 13 13 A <NON_REF> 30 9 . 9,0 0,30,300",
            "0 c 14 20 A <NON_REF> 30 9 . 9,0 0,30,300",
            "0 c 21 21 A <NON_REF> 30 9 . 9,0 0,30,301",
            "0 c 22 22 A <NON_REF> 30 9 . 9,0 0,30,300",
            "0 c 23 23 A <NON_REF> 30 9 . 9,0 0,30,300",
        ],
        ..NONE
    },
    HandCohort {
        shows: "the letters differ: two",
        samples: 1,
        sites: &[
            "0 c 10 12 A <NON_REF> 30 9 . 9,0 0,30,300",
            "0 c 13 15 C <NON_REF> 30 9 . 9,0 0,30,300",
        ],
        ..NONE
    },
    HandCohort {
        shows: "10 to 12 and 14 to 15: two",
        samples: 1,
        sites: &[
            "0 c 10 12 A <NON_REF> 30 9 . 9,0 0,30,300",
            "0 c 14 15 A <NON_REF> 30 9 . 9,0 0,30,300",
        ],
        ..NONE
    },
    HandCohort {
        shows: "alike but for GQ: two; single positions that join: END",
        samples: 1,
        sites: &[
            "0 c 1 1 A <NON_REF> 30 9 . 9,0 0,30,300",
            "0 c 2 2 A <NON_REF> 31 9 . 9,0 0,30,300",
            "0 c 3 3 A <NON_REF> 31 9 . 9,0 0,30,300",
            "0 c 4 4 A <NON_REF> 31 8 . 9,0 0,30,300",
            "0 c 5 5 A <NON_REF> 31 8 . 9 0,30,300",
            "0 c 6 6 A <NON_REF> 31 8 . 9 0,30,301",
            "0 c 7 7 A <NON_REF> 31 8 . 9 .",
            "0 c 8 8 A <NON_REF> . . . . .",
            "0 c 9 9 A <NON_REF> . . . . .",
        ],
        ..NONE
    },
    HandCohort {
        shows: "alike but for AD, then but for a missing one, in the second sample: three",
        sites: &[
            "0 c 1 6 A <NON_REF> 31 8 . 9,0 0,30,300",
            "1 c 1 2 A <NON_REF> 31 8 . 9,0 0,30,300",
            "1 c 3 4 A <NON_REF> 31 8 . 9,1 0,30,300",
            "1 c 5 6 A <NON_REF> 31 8 . . 0,30,300",
        ],
        ..NONE
    },
    HandCohort {
        shows: "AD of one entry and AD of two with 0 join",
        samples: 1,
        sites: &[
            "0 c 5 6 A <NON_REF> 31 8 . 9 0,30,300",
            "0 c 7 8 A <NON_REF> 31 8 . 9,0 0,30,300",
        ],
        ..NONE
    },
    HandCohort {
        shows: "a sample without a site: six dots",
        samples: 3,
        sites: &["1 c 3 3 A T,<NON_REF> 1 2 . 3,4,5 9,8,7,6,5,4"],
        ..NONE
    },
    HandCohort {
        shows: "a site's own * is not lengthened",
        sites: &[
            "0 c 5 5 A *,G,<NON_REF> 20 7 . 3,4,0,1 50,0,60,70,80,90,91,92,93,94",
            "1 c 5 7 ATT A,<NON_REF> 30 8 . 5,3,0 55,0,65,75,85,95",
        ],
        ..NONE
    },
    HandCohort {
        shows: "<NON_REF> first and in the middle",
        sites: &[
            "0 c 5 5 A <NON_REF>,G,T 20 7 . 3,4,0,1 50,0,60,70,80,90,91,92,93,94",
            "1 c 5 5 A C,<NON_REF>,G 30 8 . 5,3,0,2 55,0,65,75,85,95,96,97,98,99",
        ],
        ..NONE
    },
    HandCohort {
        shows: "a deletion and an equal-length ALT seen later: one *, the first of two",
        samples: 1,
        sites: &[
            "0 c 5 7 ATT A,AT,GGG,<NON_REF> 20 7 . 3,4,0,1,2 10,11,12,13,14,15,16,17,18,19,20,21,22,23,24",
        ],
        ..NONE
    },
    HandCohort {
        shows: "sixteen merged alleles",
        samples: 3,
        sites: &[
            "0 c 5 5 A C,G,T,AA,AC,<NON_REF> 1 2 . 1,2,3,4,5,6,7 1,2,3,4,5,6,7,8,9,10,11,12,13,14,15,16,17,18,19,20,21,22,23,24,25,26,27,0",
            "1 c 5 5 A AG,AT,CA,CC,CG,<NON_REF> 1 2 . 1,2,3,4,5,6,7 31,32,33,34,35,36,37,38,39,40,41,42,43,44,45,46,47,48,49,50,51,52,53,54,55,56,57,0",
            "2 c 5 5 A CT,GA,GC,*,<NON_REF> 1 2 . 1,2,3,4,5,6 1,2,3,4,5,6,7,8,9,10,11,12,13,14,15,16,17,18,19,20,21",
        ],
        ..NONE
    },
    HandCohort {
        shows: "an ALT of 128 letters lengthened by 127: 255 letters",
        sites: &[
            "0 c 5 5 A CTTTATTACACTCAGAAACAGAACTCGGGTAATTTTGACAGGTCACGCAGAGGCGCGCCCTCCTGAAGTGCGTGGACACTCGCTATGAATCTCTGATTTACCCACTCTGCCAAACTCCAGCGCGGTCA,<NON_REF> 1 2 . 3,4,5 10,0,30,40,50,60",
            "1 c 5 132 AGCTAAAGACAATTACATAACATACACGTCAGCACGAAACTTGTTGGCCCAGTGTGAATCGCTTAAGGGTTAAGTAAGTGTGATGCATACGCCTTTACTTGCTGTGTCCACCCCATCGGACTGGCATT A,<NON_REF> 1 2 . 3,4,5 10,0,30,40,50,60",
        ],
        clip: Some(&["c 5 8"]),
        ..NONE
    },
    HandCohort {
        shows: "REFs of three lengths starting together, shortest in the last sample",
        samples: 3,
        sites: &[
            "0 c 5 7 ATC A,<NON_REF> 1 2 . 3,4,5 10,0,30,40,50,60",
            "1 c 5 6 AT GT,ATT,<NON_REF> 1 2 . 3,4,5,6 10,0,30,40,50,60,70,80,90,95",
            "2 c 5 5 A <NON_REF> 1 2 . 3,4 0,20,30",
        ],
        ..NONE
    },
    HandCohort {
        shows: "a SNP inside the sample's own deletion, in front of it in the file: it is taken at its position",
        samples: 1,
        sites: &[
            "0 c 6 6 C T,<NON_REF> 1 2 . 3,4,5 9,8,7,6,5,4",
            "0 c 5 7 ACG A,<NON_REF> 2 3 . 4,5,6 1,2,3,4,5,6",
        ],
        ..NONE
    },
    HandCohort {
        shows: "the same in the other order",
        samples: 1,
        sites: &[
            "0 c 5 7 ACG A,<NON_REF> 2 3 . 4,5,6 1,2,3,4,5,6",
            "0 c 6 6 C T,<NON_REF> 1 2 . 3,4,5 9,8,7,6,5,4",
        ],
        ..NONE
    },
    HandCohort {
        shows: "contigs in byte order of name",
        samples: 1,
        sites: &[
            "0 c2 5 5 A <NON_REF> 1 2 . 3,4 0,20,30",
            "0 c10 5 5 A <NON_REF> 1 2 . 3,4 0,20,30",
            "0 C 5 5 A <NON_REF> 1 2 . 3,4 0,20,30",
            "0 c 5 5 A <NON_REF> 1 2 . 3,4 0,20,30",
            "0 ~ 5 5 A <NON_REF> 1 2 . 3,4 0,20,30",
        ],
        ..NONE
    },
    HandCohort {
        shows: "a clip that is lent and empty",
        samples: 1,
        sites: &["0 c 5 9 A <NON_REF> 1 2 . 3,4 0,20,30"],
        clip: Some(&[]),
        ..NONE
    },
    HandCohort {
        shows: "a clip on another contig",
        samples: 1,
        sites: &["0 c 5 9 A <NON_REF> 1 2 . 3,4 0,20,30"],
        clip: Some(&["d 5 9"]),
        ..NONE
    },
    HandCohort {
        shows: "a clip that cuts a block on both sides, the letter from the reference",
        samples: 1,
        sites: &["0 c 5 19 A <NON_REF> 1 2 . 3,4 0,20,30"],
        clip: Some(&["c 7 9", "c 15 30"]),
        reference: Some(&["c 7 G", "c 10 C", "c 15 T"]),
        ..NONE
    },
    HandCohort {
        shows: "clip spans that touch: the parts of the block join, all of unknown letter; the reference is not lent",
        samples: 1,
        sites: &["0 c 5 19 A <NON_REF> 1 2 . 3,4 0,20,30"],
        clip: Some(&["c 7 9", "c 10 12", "c 11 15"]),
        ..NONE
    },
    HandCohort {
        shows: "a clip span past every site, and one up to 2147483647",
        samples: 1,
        sites: &["0 c 5 19 A <NON_REF> 1 2 . 3,4 0,20,30"],
        clip: Some(&["c 100 200", "c 18 2147483647"]),
        ..NONE
    },
    HandCohort {
        shows: "a reference that is lent and empty, where no letter is needed",
        samples: 1,
        sites: &["0 c 5 5 A G,<NON_REF> 1 2 . 3,4,5 9,8,7,6,5,4"],
        reference: Some(&[]),
        ..NONE
    },
    HandCohort {
        shows: "without a reference: N behind the last start, where no block's REF reaches",
        samples: 3,
        sites: &[
            "2 c 5 20 G <NON_REF> 1 2 . 3,4 0,20,30",
            "1 c 6 20 C <NON_REF> 1 2 . 3,4 0,20,30",
            "0 c 8 8 T <NON_REF> 1 2 . 3,4 0,20,30",
        ],
        ..NONE
    },
    HandCohort {
        shows: "reference letters that part a block which would have joined",
        sites: &[
            "0 c 5 12 A <NON_REF> 1 2 . 3,4 0,20,30",
            "1 c 8 8 C G,<NON_REF> 1 2 . 3,4,5 9,8,7,6,5,4",
        ],
        reference: Some(&["c 5 AACCGGTTN"]),
        ..NONE
    },
];

/// What it shows, and its text.
pub const COMBINED_LISTS: &[(&str, &str)] = &[
    (
        "drop 90,80,70,10,20,30: 0,10,10, GQ 10",
        "samples=1\nsample=S\nrecords=1\ncontig=c\npos=5\nend=.\nref=A\nalt=G,<NON_REF>\ngt=0/2\ngq=7\ndp=8\nmindp=.\nad=1,2,3\npl=90,80,70,10,20,30\n",
    ),
    (
        "no records",
        "samples=1\nsample=S\nrecords=0\n",
    ),
    (
        "a block is dropped",
        "samples=1\nsample=S\nrecords=1\ncontig=c\npos=5\nend=9\nref=A\nalt=<NON_REF>\ngt=0/0\ngq=7\ndp=8\nmindp=.\nad=1,2\npl=0,10,20\n",
    ),
    (
        "REF of two letters with <NON_REF> alone is dropped",
        "samples=1\nsample=S\nrecords=1\ncontig=c\npos=5\nend=.\nref=AC\nalt=<NON_REF>\ngt=0/0\ngq=7\ndp=8\nmindp=.\nad=1,2\npl=0,10,20\n",
    ),
    (
        "no sample has PL: dropped",
        "samples=2\nsample=S\nsample=T\nrecords=1\ncontig=c\npos=5\nend=.\nref=A\nalt=G,<NON_REF>\ngt=0/0\ngq=7\ndp=8\nmindp=.\nad=1,2,3\npl=.\ngt=.\ngq=.\ndp=.\nmindp=.\nad=.\npl=.\n",
    ),
    (
        "one of two samples has PL: kept",
        "samples=2\nsample=S\nsample=T\nrecords=1\ncontig=c\npos=5\nend=.\nref=A\nalt=G,<NON_REF>\ngt=0/0\ngq=7\ndp=8\nmindp=.\nad=1,2,3\npl=.\ngt=.\ngq=.\ndp=.\nmindp=.\nad=.\npl=1,2,3,4,5,6\n",
    ),
    (
        "GQ 0 of two least PLs, GQ at most 99",
        "samples=2\nsample=S\nsample=T\nrecords=1\ncontig=c\npos=5\nend=.\nref=A\nalt=G,<NON_REF>\ngt=0/0\ngq=7\ndp=8\nmindp=.\nad=1,2,3\npl=0,0,5,9,9,9\ngt=0/0\ngq=1\ndp=2\nmindp=.\nad=3,4,5\npl=0,150,200,300,300,300\n",
    ),
    (
        "<NON_REF> first among the ALTs",
        "samples=1\nsample=S\nrecords=1\ncontig=c\npos=5\nend=.\nref=A\nalt=<NON_REF>,G\ngt=0/0\ngq=7\ndp=8\nmindp=.\nad=1,2,3\npl=90,80,70,60,50,40\n",
    ),
    (
        "* is kept as an ALT",
        "samples=1\nsample=S\nrecords=1\ncontig=c\npos=5\nend=.\nref=A\nalt=*,<NON_REF>\ngt=0/0\ngq=7\ndp=8\nmindp=.\nad=1,2,3\npl=0,10,20,30,40,50\n",
    ),
    (
        "the greatest numbers",
        "samples=1\nsample=S\nrecords=1\ncontig=c\npos=2147483647\nend=.\nref=A\nalt=G,<NON_REF>\ngt=0/0\ngq=2147483647\ndp=2147483647\nmindp=.\nad=2147483647,2147483647,2147483647\npl=2147483647,2147483647,2147483647,2147483647,2147483647,2147483647\n",
    ),
    (
        "0 and the greatest PL",
        "samples=1\nsample=S\nrecords=1\ncontig=c\npos=5\nend=.\nref=A\nalt=G,<NON_REF>\ngt=0/1\ngq=7\ndp=8\nmindp=.\nad=1,2,3\npl=2147483647,0,2147483647,2147483647,2147483647,2147483647\n",
    ),
    (
        "<NON_REF> twice counts for REF alone",
        "samples=1\nsample=S\nrecords=1\ncontig=c\npos=5\nend=.\nref=A\nalt=G,T,<NON_REF>\ngt=3/3\ngq=7\ndp=8\nmindp=.\nad=1,2,3,4\npl=90,80,70,60,50,40,95,96,97,1\n",
    ),
];

/// Combined lists with letters of either case, read as capitals: what it shows, and its text.
pub const SPELLED_LISTS: &[(&str, &str)] = &[
    (
        "small letters: drop 90,80,70,10,20,30 of a to g",
        "samples=1\nsample=S\nrecords=1\ncontig=c\npos=5\nend=.\nref=a\nalt=g,<NON_REF>\ngt=0/2\ngq=7\ndp=8\nmindp=.\nad=1,2,3\npl=90,80,70,10,20,30\n",
    ),
    (
        "small letters: contigs and names keep their case, * and <NON_REF> are themselves, a block of small letters is dropped",
        "samples=2\nsample=s\nsample=S\nrecords=3\ncontig=N\npos=5\nend=9\nref=n\nalt=<NON_REF>\ngt=.\ngq=.\ndp=.\nmindp=.\nad=1,2\npl=1,2,3\ngt=.\ngq=.\ndp=.\nmindp=.\nad=.\npl=.\ncontig=a\npos=5\nend=.\nref=acgTN\nalt=*,<NON_REF>,Ac\ngt=.\ngq=.\ndp=.\nmindp=.\nad=.\npl=9,8,7,6,5,4,3,2,1,0\ngt=.\ngq=.\ndp=.\nmindp=.\nad=.\npl=.\ncontig=n\npos=1\nend=.\nref=N\nalt=nA,<NON_REF>\ngt=.\ngq=.\ndp=.\nmindp=.\nad=.\npl=.\ngt=0/1\ngq=1\ndp=2\nmindp=.\nad=3,4,5\npl=6,5,4,3,2,1\n",
    ),
];

/// The kind and its inputs.
pub const GROUPS: &[(&str, &[&str])] = &[
    ("trim", &["AAT,AT"]),
    ("trim", &["CAT,GAT"]),
    ("trim", &["AT,T"]),
    ("trim", &["ACGT"]),
    ("trim", &["ACGT,<NON_REF>"]),
    ("trim", &["ACGT,*,<NON_REF>"]),
    ("trim", &["AAT,AT,*,<NON_REF>"]),
    ("trim", &["AT,CAT"]),
    ("trim", &["CAT,AT"]),
    ("trim", &["A,<NON_REF>,*"]),
    ("trim", &["AAt,aT"]),
    ("trim", &["cAT,Gat,*,<NON_REF>"]),
    ("trim", &["acgtn,tgCAn"]),
    ("likelihoods", &["0"]),
    ("likelihoods", &["2147483647"]),
    ("likelihoods", &["0,1,2,3,4,5,6,7,8,9,10,11,12,13,14"]),
    ("gq", &["0"]),
    ("gq", &["2147483647"]),
    ("gq", &["0,0,5"]),
    ("gq", &["0,150,200"]),
    ("gq", &["5,5,9"]),
    ("gq", &["9,5,7"]),
    ("gq", &["2147483647,0,2147483647"]),
    ("gq", &["99,0,198"]),
    ("gq", &["100,0,198"]),
    ("subset", &["0000000000000000", "1", "0"]),
    ("subset", &["c024000000000000", "1", "0,0"]),
    ("subset", &["c024000000000000", "1", "."]),
    (
        "subset",
        &["c008000000000000,0000000000000000,c01e000000000000", "2", "1"],
    ),
    (
        "subset",
        &["c008000000000000,0000000000000000,c01e000000000000", "2", "1,0"],
    ),
    (
        "subset",
        &["41e0000000000000,c1e0000000000000,0000000000000001", "2", "0,1"],
    ),
    (
        "unused_alts",
        &[
            "G,T",
            "0,1",
            "c008000000000000,0000000000000000,c01e000000000000,c020000000000000,c022000000000000,c024000000000000",
            "1,2,3",
        ],
    ),
    (
        "unused_alts",
        &[
            "G,T",
            "-1,-1",
            "c008000000000000,0000000000000000,c01e000000000000,c020000000000000,c022000000000000,c024000000000000",
            "1,2,3",
        ],
    ),
    (
        "unused_alts",
        &[
            "g,T",
            "0,1",
            "c008000000000000,0000000000000000,c01e000000000000,c020000000000000,c022000000000000,c024000000000000",
            "1,2,3",
        ],
    ),
    ("unused_alts", &["G", "0,1", "7ff0000000000000", "."]),
    ("unused_alts", &[".", "0,0", "c008000000000000", "7"]),
];
