"""The groups of impls of `against_rustc.py`: declarations, and impls of `Tr`, each of which is asked about with every other of its group.

Crate 0 is ours, crate 1 one above, and crate 9 Rust's std, of which `crates/texts/data/before/prelude.txt` comes first.
"""

# Which pairs of the group `special` have an impl that specialises the other.
SPECIALIZING = (
    "each sized;each bounded;each far;each both;each byte;each word;each pair;"
    "sized byte;sized word;sized pair;bounded both;bounded byte;far both"
).split(";")

GROUPS = [
    {
        "name": "heads",
        "about": "Heads of types, and parameters that are sized or not.",
        "text": """
trait 0 Tr 0
impl 0 byte 0 + Tr u8
impl 0 text 0 + Tr str
impl 0 each 1 + Tr #0
impl 0 sized 1 + Tr #0
iwhere sized Sized #0
impl 0 slice 1 + Tr [] #0
iwhere slice Sized #0
impl 0 three 1 + Tr [3] #0
iwhere three Sized #0
impl 0 four_bytes 0 + Tr [4] u8
impl 0 two 2 + Tr (2) #0 #1
iwhere two Sized #0
iwhere two Sized #1
impl 0 same 1 + Tr (2) #0 #0
iwhere same Sized #0
""",
    },
    {
        "name": "pointers",
        "about": "References, pointers, and what takes and answers types.",
        "text": """
trait 0 Tr 0
impl 0 by_ref 1 + Tr & #0
impl 0 by_ref_mut 1 + Tr &mut #0
impl 0 by_two 1 + Tr & & #0
impl 0 pointer 1 + Tr *const #0
impl 0 to_text 0 + Tr *const str
impl 0 function 2 + Tr fn(1) #0 #1
iwhere function Sized #0
iwhere function Sized #1
impl 0 to_same 1 + Tr fn(1) #0 #0
iwhere to_same Sized #0
impl 0 of_nothing 1 + Tr fn(0) #0
iwhere of_nothing Sized #0
impl 0 to_byte 0 + Tr fn(1) bool u8
""",
    },
    {
        "name": "repeated",
        "about": "Parameters that a header names twice, which would have to stand in themselves.",
        "text": """
trait 0 Tr 1
adt 0 Pair 2
impl 0 same 1 + Tr #0 #0
impl 0 right 1 + Tr #0 Vec #0
iwhere right Sized #0
impl 0 left 1 + Tr Vec #0 #0
iwhere left Sized #0
impl 0 both 1 + Tr Vec #0 Vec #0
iwhere both Sized #0
impl 0 numbers 0 + Tr u8 u16
impl 0 deep 1 + Tr Pair #0 Vec #0 Pair Vec #0 #0
iwhere deep Sized #0
impl 0 crossed 2 + Tr Pair #0 #1 Pair #1 #0
impl 0 nested 2 + Tr Pair #0 #1 Pair Pair #1 #0 #0
""",
    },
    {
        "name": "local_bounds",
        "about": "Where clauses on a trait of ours, of which all impls are known.",
        "text": """
trait 0 Bound 0
adt 0 Loc 0
adt 0 Gen 1
impl 0 bound_byte 0 + Bound u8
impl 0 bound_vec 1 + Bound Vec #0
iwhere bound_vec Sized #0
iwhere bound_vec Bound #0
impl 0 bound_ref 1 + Bound & #0
trait 0 Tr 0
impl 0 bounded 1 + Tr #0
iwhere bounded Bound #0
impl 0 loc 0 + Tr Loc
impl 0 byte 0 + Tr u8
impl 0 vec_loc 0 + Tr Vec Loc
impl 0 vec_byte 0 + Tr Vec Vec u8
impl 0 by_ref 1 + Tr & #0
impl 0 gen 1 + Tr Gen #0
impl 0 vec 1 + Tr Vec #0
iwhere vec Sized #0
impl 0 boxed 1 + Tr Box #0
impl 0 not_vec 1 + Tr #0
iwhere not_vec Sized #0
iwhere not_vec Bound Vec #0
""",
    },
    {
        "name": "far_bounds",
        "about": "Where clauses on a trait of another crate, which may get impls.",
        "text": """
trait 1 Far 0
adt 1 Up 0
adt 1 UpGen 1
impl 1 far_up 0 + Far Up
adt 0 Loc 0
adt 0 Gen 1
trait 0 Tr 0
impl 0 far 1 + Tr #0
iwhere far Far #0
impl 0 loc 0 + Tr Loc
impl 0 up 0 + Tr Up
impl 0 up_loc 0 + Tr UpGen Loc
impl 0 box_loc 0 + Tr Box Loc
impl 0 ref_loc 0 + Tr & & Loc
impl 0 gen 1 + Tr Gen #0
impl 0 boxed 1 + Tr Box Vec #0
iwhere boxed Sized #0
""",
    },
    {
        "name": "far_arguments",
        "about": "Where clauses whose trait has an argument, by which it may be ours.",
        "text": """
trait 1 Far 1
adt 1 UpGen 1
adt 0 Loc 0
impl 0 far_byte 0 + Far u8 Loc
impl 1 far_all 1 + Far UpGen #0 #0
iwhere far_all Sized #0
trait 0 Tr 0
impl 0 far_loc 1 + Tr #0
iwhere far_loc Far #0 Loc
impl 0 far_byte_of 1 + Tr #0
iwhere far_byte_of Far #0 u8
impl 0 byte 0 + Tr u8
impl 0 word 0 + Tr u16
impl 0 loc 0 + Tr Loc
impl 0 up_loc 0 + Tr UpGen Loc
impl 0 up_byte 0 + Tr UpGen u8
""",
    },
    {
        "name": "std_bounds",
        "about": "Where clauses on traits of std.",
        "text": """
adt 0 Loc 0
adt 0 Own 0
impl 0 clone_own 0 + Clone Own
impl 0 copy_own 0 + Copy Own
trait 0 Tr 0
impl 0 copies 1 + Tr #0
iwhere copies Copy #0
impl 0 shown 1 + Tr #0
iwhere shown Display #0
impl 0 text 0 + Tr String
impl 0 byte 0 + Tr u8
impl 0 loc 0 + Tr Loc
impl 0 own 0 + Tr Own
impl 0 exclusive 1 + Tr &mut #0
impl 0 shared 0 + Tr & Loc
impl 0 pair 0 + Tr (2) Loc u8
impl 0 pair_own 0 + Tr (2) Own u8
impl 0 opt_loc 0 + Tr Option Loc
""",
    },
    {
        "name": "conversions",
        "about": "Impls of std for each type, by which a clause leads to others.",
        "text": """
adt 0 Loc 0
adt 0 Own 0
impl 0 own_from_loc 0 + From Own Loc
trait 0 Tr 0
impl 0 into_own 1 + Tr #0
iwhere into_own Sized #0
iwhere into_own Into #0 Own
impl 0 from_loc 1 + Tr #0
iwhere from_loc Sized #0
iwhere from_loc From #0 Loc
impl 0 strings 1 + Tr #0
iwhere strings ToString #0
impl 0 goes 1 + Tr #0
iwhere goes IntoIterator #0
impl 0 any_of 1 + Tr #0
iwhere any_of Any #0
impl 0 loc 0 + Tr Loc
impl 0 own 0 + Tr Own
impl 0 byte 0 + Tr u8
impl 0 ref_loc 0 + Tr & Loc
""",
    },
    {
        "name": "calls",
        "about": "Traits for what can be called, which are fundamental, and supertraits that are refused.",
        "text": """
trait 1 Calls 0
super Calls FnOnce #0 (1) u8
trait 1 Plain 0
super Plain Sized #0
adt 0 Loc 0
trait 0 Tr 0
impl 0 takes 1 + Tr #0
iwhere takes Fn #0 (1) u8
impl 0 once 1 + Tr #0
iwhere once FnOnce #0 (0)
impl 0 calls 1 + Tr #0
iwhere calls Calls #0
impl 0 plain 1 + Tr #0
iwhere plain Plain #0
impl 0 byte 0 + Tr u8
impl 0 loc 0 + Tr Loc
impl 0 text 0 + Tr str
impl 0 function 1 + Tr fn(1) u8 #0
iwhere function Sized #0
impl 0 other 0 + Tr fn(1) bool u8
impl 0 vec_of 1 + Tr Vec #0
iwhere vec_of Sized #0
""",
    },
    {
        "name": "objects",
        "about": "Objects: their bounds, and whether they meet traits.",
        "text": """
trait 0 Shape 0 dyn
trait 0 Round 0 dyn
super Round Shape #0
trait 1 Up 1 dyn
assoc Up Out
bound Out Sized Out #0 #1
trait 0 Tr 0
impl 0 shape 0 + Tr dyn(1) Shape
impl 0 round 0 + Tr dyn(1) Round
impl 0 shape_send 0 + Tr dyn(2) Shape Send
impl 0 ups 2 + Tr dyn(2) Up #0 Out #0 #1
iwhere ups Sized #1
impl 0 up_byte 0 + Tr dyn(2) Up u8 Out u8 bool
impl 0 up_same 1 + Tr dyn(2) Up u16 Out u16 #0
iwhere up_same Sized #0
impl 0 shapes 1 + Tr #0
iwhere shapes Shape #0
impl 0 rounds 1 + Tr #0
iwhere rounds Round #0
impl 0 sized 1 + Tr #0
iwhere sized Sized #0
impl 0 boxed 0 + Tr Box dyn(1) Shape
impl 0 empty 0 + Tr dyn(1) Send
impl 0 takes 1 + Tr #0
iwhere takes Fn #0 (1) u8
impl 0 function 0 + Tr dyn(2) Fn (1) u8 Output (1) u8 bool
impl 0 box_function 0 + Tr Box dyn(2) Fn (1) u8 Output (1) u8 bool
impl 0 ref_function 0 + Tr & fn(1) u8 bool
""",
    },
    {
        "name": "aliases",
        "about": "Associated types in headers and clauses.",
        "text": """
trait 0 Has 0
assoc Has Out
trait 0 Bound 0
adt 0 Loc 0
impl 0 has_byte 0 + Has u8
value has_byte Out bool
impl 0 has_loc 0 + Has Loc
value has_loc Out Loc
impl 0 bound_bool 0 + Bound bool
trait 0 Tr 1
impl 0 byte 0 + Tr u8 bool
impl 0 loc 0 + Tr Loc Loc
impl 0 out 1 + Tr #0 Out #0
iwhere out Sized #0
iwhere out Has #0
impl 0 of_byte 1 + Tr #0 Out u8
impl 0 says 1 + Tr #0 bool
iwhere says Has #0
iwhere says Out #0 char
impl 0 bounded 1 + Tr #0 #0
iwhere bounded Has #0
iwhere bounded Bound Out #0
impl 0 word 0 + Tr u16 char
""",
    },
    {
        "name": "alias_bounds",
        "about": "Bounds on associated types, in clauses and in impls to which clauses lead.",
        "text": """
trait 0 Iter 0
assoc Iter Step
bound Step Sized Step #0
trait 0 Show 0
trait 0 Via 0
trait 0 Told 0
trait 0 Tr 0
adt 0 Loc 0
adt 0 Own 0
adt 0 Gen 1
impl 0 iter_loc 0 + Iter Loc
value iter_loc Step u8
impl 0 iter_own 0 + Iter Own
value iter_own Step char
impl 0 iter_gen 1 + Iter Gen #0
iwhere iter_gen Iter #0
value iter_gen Step Step #0
impl 0 show_byte 0 + Show u8
impl 0 via_all 1 + Via #0
iwhere via_all Iter #0
iwhere via_all Show Step #0
impl 0 told_step 0 + Told Vec Step Loc
impl 0 shows 1 + Tr #0
iwhere shows Iter #0
iwhere shows Show Step #0
impl 0 vias 1 + Tr #0
iwhere vias Via #0
impl 0 tells 1 + Tr #0
iwhere tells Told #0
impl 0 covers 1 + Tr #0
iwhere covers Iter #0
iwhere covers Show Vec Step #0
impl 0 loc 0 + Tr Loc
impl 0 own 0 + Tr Own
impl 0 gen_loc 0 + Tr Gen Loc
impl 0 gen_own 0 + Tr Gen Own
impl 0 vec_byte 0 + Tr Vec u8
impl 0 byte 0 + Tr u8
""",
    },
    {
        "name": "alias_parts",
        "about": "Associated types below heads, several in one header, and around what it names, too.",
        "text": """
trait 0 Iter 0
assoc Iter Step
bound Step Sized Step #0
adt 0 Loc 0
adt 0 Gen 1
impl 0 iter_loc 0 + Iter Loc
value iter_loc Step u8
impl 0 iter_gen 1 + Iter Gen #0
value iter_gen Step bool
trait 0 Tr 1
impl 0 vec 1 + Tr Vec Step #0 #0
iwhere vec Iter #0
impl 0 by_ref 1 + Tr & Step #0 #0
iwhere by_ref Iter #0
impl 0 two 1 + Tr (2) Step #0 Step #0 #0
iwhere two Iter #0
impl 0 function 1 + Tr fn(1) Step #0 bool #0
iwhere function Iter #0
impl 0 around 1 + Tr #0 Vec Step #0
iwhere around Iter #0
impl 0 gen 2 + Tr Gen (2) #0 #1 #0
iwhere gen Sized #0
iwhere gen Sized #1
impl 0 vec_loc 0 + Tr Vec u8 Loc
impl 0 ref_gen 1 + Tr & bool Gen #0
impl 0 two_loc 0 + Tr (2) u8 u8 Loc
impl 0 to_byte 1 + Tr fn(1) u8 u8 #0
impl 0 byte 0 + Tr u8 Loc
""",
    },
    {
        "name": "several",
        "about": "Several clauses, each of which says something of the other's parameters, and circles.",
        "text": """
trait 0 A 1
trait 0 B 0
trait 0 C 0
adt 0 Loc 0
adt 0 Gen 1
impl 0 a_byte 0 + A u8 u16
impl 0 a_loc 0 + A Loc bool
impl 0 b_bool 0 + B bool
impl 0 b_gen 1 + B Gen #0
iwhere b_gen C Gen #0
impl 0 c_gen 1 + C Gen #0
iwhere c_gen B Gen #0
impl 0 a_char 0 + A char Vec u16
trait 0 Tr 1
impl 0 chained 2 + Tr #0 #1
iwhere chained A #0 #1
iwhere chained B #1
impl 0 covered 2 + Tr #0 #1
iwhere covered Sized #1
iwhere covered A #0 Vec #1
iwhere covered B #1
impl 0 letter 1 + Tr char #0
impl 0 byte 1 + Tr u8 #0
impl 0 loc 1 + Tr Loc #0
impl 0 gens 2 + Tr Gen #0 #1
impl 0 circle 2 + Tr #0 #1
iwhere circle B #0
impl 0 either 1 + Tr #0 #0
iwhere either B #0
iwhere either C #0
impl 0 flags 0 + Tr bool bool
""",
    },
    {
        "name": "foreign",
        "about": "A trait of another crate: which headers we may write, and which overlap.",
        "text": """
adt 1 Up 0
adt 1 UpGen 1
adt 0 Loc 0
adt 0 Gen 1
trait 0 Shape 0 dyn
trait 1 Far 0
trait 1 UpShape 0 dyn
trait 1 UpGiven 1 dyn
trait 1 Tr 0
impl 0 loc 0 + Tr Loc
impl 0 gen 1 + Tr Gen #0
impl 0 boxed 1 + Tr Box #0
impl 0 box_loc 0 + Tr Box Loc
impl 0 ref_gen 1 + Tr & Gen #0
impl 0 refs 1 + Tr & #0
impl 0 each 1 + Tr #0
impl 0 far 1 + Tr #0
iwhere far Far #0
impl 0 up_loc 0 + Tr UpGen Loc
impl 0 up 0 + Tr Up
impl 0 one_loc 0 + Tr (1) Loc
impl 0 object 0 + Tr dyn(1) Shape
impl 0 up_object 0 + Tr dyn(2) UpShape Send
impl 0 object_of_loc 0 + Tr dyn(1) UpGiven Loc
impl 0 function 0 + Tr fn(1) Loc Loc
impl 0 slice 0 + Tr [] Loc
impl 0 pinned 0 + Tr Pin & Loc
""",
    },
    {
        "name": "foreign_arguments",
        "about": "A trait of another crate with an argument: the first local type counts, and what stands before it.",
        "text": """
adt 1 Up 0
adt 1 UpGen 1
adt 0 Loc 0
adt 0 Gen 1
trait 1 Tr 1
impl 0 first 1 + Tr Loc #0
impl 0 covered 1 + Tr Vec #0 Loc
iwhere covered Sized #0
impl 0 uncovered 1 + Tr #0 Loc
impl 0 ref_first 1 + Tr & #0 Loc
impl 0 byte_loc 0 + Tr u8 Loc
impl 0 byte_box 1 + Tr u8 Box #0
impl 0 byte_gen 1 + Tr u8 Gen #0
impl 0 nothing 1 + Tr UpGen #0 Vec #0
iwhere nothing Sized #0
impl 0 own_vec 0 + Tr Vec Loc Vec Loc
impl 0 box_both 1 + Tr Box Loc Box #0
impl 0 both 1 + Tr #0 #0
""",
    },
    {
        "name": "marked",
        "about": "Negative impls, reservations, auto traits, and a trait and a data type that are fundamental.",
        "text": """
trait 1 Key 0 fundamental
trait 1 Far 0
adt 1 Up 0
adt 1 Wrap 1 fundamental
impl 1 not_up 0 - Far Up
trait 0 Auto 0 auto by_head
adt 0 Loc 0
field Loc u8
adt 0 Kept 0
field Kept *const u8
adt 0 Rec 0
field Rec & Rec
adt 0 RecKept 0
field RecKept & RecKept
field RecKept Kept
adt 0 Other 0
field Other *const u16
impl 0 kept_not 0 - Auto *const u8
trait 0 Bound 0
impl 0 reserved 1 reservation Bound Vec #0
iwhere reserved Sized #0
impl 0 not_loc 0 - Bound Loc
trait 0 Tr 0
impl 0 keys 1 + Tr #0
iwhere keys Key #0
impl 0 far 1 + Tr #0
iwhere far Far #0
impl 0 autos 1 + Tr #0
iwhere autos Auto #0
impl 0 bounded 1 + Tr #0
iwhere bounded Bound #0
impl 0 up 0 + Tr Up
impl 0 loc 0 + Tr Loc
impl 0 kept 0 + Tr Kept
impl 0 vec 1 + Tr Vec #0
iwhere vec Sized #0
impl 0 not_byte 0 - Tr u8
impl 0 byte 0 + Tr u8
impl 0 wrapped 0 + Tr Wrap Loc
impl 0 never 0 + Tr !
impl 0 rec 0 + Tr Rec
impl 0 rec_kept 0 + Tr RecKept
impl 0 other 0 + Tr Other
impl 0 sized 1 + Tr #0
iwhere sized Sized #0
""",
    },
    {
        "name": "markers",
        "about": "Positive and negative impls of a marker.",
        "features": ["marker_trait_attr"],
        "text": """
adt 0 Loc 0
trait 0 Bound 0
impl 0 bound_loc 0 + Bound Loc
trait 0 Tr 0 marker
impl 0 each 1 + Tr #0
impl 0 bounded 1 + Tr #0
iwhere bounded Bound #0
impl 0 vec 1 + Tr Vec #0
iwhere vec Sized #0
impl 0 loc 0 + Tr Loc
impl 0 not_loc 0 - Tr Loc
impl 0 not_bounded 1 - Tr #0
iwhere not_bounded Bound #0
""",
    },
    {
        "name": "language",
        "about": "Traits that the language knows.",
        "text": """
trait 0 Shape 0 dyn
trait 0 Round 0 dyn
super Round Shape #0
adt 0 Loc 0
adt 0 Tail 1
field Tail #0
sized Tail #0
impl 0 shape_loc 0 + Shape Loc
trait 0 Tr 0
impl 0 to_shape 1 + Tr #0
iwhere to_shape Unsize #0 dyn(1) Shape
impl 0 to_slice 1 + Tr #0
iwhere to_slice Unsize #0 [] Loc
impl 0 tuples 1 + Tr #0
iwhere tuples Tuple #0
impl 0 functions 1 + Tr #0
iwhere functions FnPtr #0
impl 0 tagged 1 + Tr #0
iwhere tagged DiscriminantKind #0
impl 0 sized 1 + Tr #0
iwhere sized Sized #0
impl 0 tail_text 0 + Tr Tail str
impl 0 tail_byte 0 + Tr Tail u8
impl 0 loc 0 + Tr Loc
impl 0 round 0 + Tr dyn(1) Round
impl 0 three 0 + Tr [3] Loc
impl 0 byte 0 + Tr u8
impl 0 pair 0 + Tr (2) u8 Loc
impl 0 function 0 + Tr fn(1) u8 u8
""",
    },
    {
        "name": "itself_below",
        "about": "A clause on the trait itself.",
        "text": """
trait 0 Tr 0
adt 0 Loc 0
impl 0 vec 1 + Tr Vec #0
iwhere vec Sized #0
iwhere vec Tr #0
impl 0 vec_loc 0 + Tr Vec Loc
""",
    },
    {
        "name": "itself_held",
        "about": "A clause on the trait itself, which holds by the other impl.",
        "text": """
trait 0 Tr 0
adt 0 Loc 0
impl 0 vec 1 + Tr Vec #0
iwhere vec Sized #0
iwhere vec Tr Box #0
impl 0 loc 1 + Tr #0
iwhere loc Copy #0
""",
    },
    {
        "name": "itself_wanting",
        "about": "A clause on the trait itself, of which the other impl says no more than the header has.",
        "text": """
trait 0 Tr 1
adt 0 Loc 0
adt 0 Own 0
impl 0 to_own 1 + Tr #0 Own
iwhere to_own Tr #0 Loc
impl 0 given 0 + Tr u8 Own
""",
    },
    {
        "name": "itself_growing",
        "about": "A clause that leads to ever larger goals.",
        "rounds": "20",
        "text": """
trait 0 Tr 0
adt 0 Loc 0
impl 0 each 1 + Tr #0
iwhere each Sized #0
iwhere each Tr Vec #0
impl 0 vec_loc 0 + Tr Vec Loc
""",
    },
    {
        "name": "special",
        "about": "Impls that specialise others, which is accepted then.",
        "features": ["specialization"],
        "text": """
trait 1 Far 0
trait 0 Bound 0
impl 0 bound_byte 0 + Bound u8
trait 0 Tr 0
impl 0 each 1 + Tr #0
impl 0 sized 1 + Tr #0
iwhere sized Sized #0
impl 0 bounded 1 + Tr #0
iwhere bounded Bound #0
impl 0 far 1 + Tr #0
iwhere far Far #0
impl 0 both 1 + Tr #0
iwhere both Bound #0
iwhere both Far #0
impl 0 byte 0 + Tr u8
impl 0 word 0 + Tr u16
impl 0 pair 2 + Tr (2) #0 #1
iwhere pair Sized #0
iwhere pair Sized #1
""",
    },
    {
        "name": "negative",
        "about": "Negative impls of bounds, which are asked for then.",
        "features": ["with_negative_coherence"],
        "text": """
trait 1 Far 0
adt 1 Up 0
impl 1 not_up 0 - Far Up
impl 1 not_gen 1 - Far Vec #0
iwhere not_gen Sized #0
trait 0 Tr 0
impl 0 far 1 + Tr #0
iwhere far Far #0
impl 0 up 0 + Tr Up
impl 0 vec 1 + Tr Vec #0
iwhere vec Sized #0
impl 0 byte 0 + Tr u8
""",
    },
]

# Why the two may differ.
REASONS = {
    "alias": "an associated type stands in a nested goal, which stays open",
    "special": "an impl specialises the other, which is accepted with the feature",
    "negative": "a negative impl of what a clause asks for decides with the feature",
}

# Where they do, by the group and the pair.
DIFFERING = {
    ("alias_bounds", "shows gen_own"): "alias",
    ("alias_bounds", "vias own"): "alias",
    ("alias_bounds", "vias gen_own"): "alias",
    ("alias_bounds", "shows covers"): "alias",
    ("alias_bounds", "vias covers"): "alias",
    ("alias_bounds", "tells covers"): "alias",
    ("alias_bounds", "covers gen_loc"): "alias",
    ("alias_bounds", "covers gen_own"): "alias",
    ("negative", "far up"): "negative",
    ("negative", "far vec"): "negative",
    **{("special", pair): "special" for pair in SPECIALIZING},
}
