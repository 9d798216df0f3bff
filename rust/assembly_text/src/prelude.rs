// Made of `crates/assembly_text/src/prelude.rt` by `bench/plain.py`: an edit of this file is lost.

//! The declarations of Rust's std that a text may begin with.

use kit::{eprintln, format, prelude::*, print, println, vec};
/// The text of `crates/texts/data/before/prelude.txt`. `./check` says where the two differ.
pub const PRELUDE: &str = "\
// What a text may begin with: the traits that the language knows, and what Rust's std declares of them, as crate 9.
// What follows it asks `overlap`, `solve` or `answer` with what std says of `u8: Copy` and the like, which no rule of the language gives.

// Sizes. Each type parameter of an impl that Rust doesn't write `?Sized` for wants a line `iwhere IMPL Sized #k`.
trait 9 MetaSized 0 fundamental
trait 9 Sized 0 fundamental default
super Sized MetaSized #0
lang MetaSized MetaSized
lang Sized Sized

// Traits that rules of the language hold for some types, and impls for others.
trait 9 Destruct 0
trait 9 Drop 0
trait 9 BikeshedGuaranteedNoDrop 0
trait 9 Clone 0
super Clone Sized #0
trait 9 TrivialClone 0
super TrivialClone Clone #0
trait 9 Copy 0
super Copy Clone #0
lang Destruct Destruct
lang Drop Drop
lang BikeshedGuaranteedNoDrop BikeshedGuaranteedNoDrop
lang Clone Clone
lang TrivialClone TrivialClone
lang Copy Copy

// What can be called: by the tuple of the types that it takes.
trait 9 Tuple 0
trait 9 FnOnce 1 fundamental dyn
where FnOnce Tuple #1
assoc FnOnce Output
trait 9 FnMut 1 fundamental dyn
super FnMut FnOnce #0 #1
where FnMut Tuple #1
trait 9 Fn 1 fundamental dyn
super Fn FnMut #0 #1
where Fn Tuple #1
trait 9 FnPtr 0
super FnPtr Copy #0
super FnPtr Clone #0
lang Tuple Tuple
lang FnOnce FnOnce
lang FnMut FnMut
lang Fn Fn
lang FnPtrTrait FnPtr

// References to what can be called can be called, too. These traits are fundamental: what has no impl here is refused.
impl 9 fn_ref 2 + Fn & #0 #1
iwhere fn_ref Tuple #1
iwhere fn_ref Fn #0 #1
impl 9 fn_mut_ref 2 + FnMut & #0 #1
iwhere fn_mut_ref Tuple #1
iwhere fn_mut_ref Fn #0 #1
impl 9 fn_once_ref 2 + FnOnce & #0 #1
iwhere fn_once_ref Tuple #1
iwhere fn_once_ref Fn #0 #1
value fn_once_ref Output Output #0 #1
impl 9 fn_mut_ref_mut 2 + FnMut &mut #0 #1
iwhere fn_mut_ref_mut Tuple #1
iwhere fn_mut_ref_mut FnMut #0 #1
impl 9 fn_once_ref_mut 2 + FnOnce &mut #0 #1
iwhere fn_once_ref_mut Tuple #1
iwhere fn_once_ref_mut FnMut #0 #1
value fn_once_ref_mut Output Output #0 #1

// Pointers and enums.
trait 9 Unsize 1
trait 9 Pointee 0
assoc Pointee Metadata
trait 9 DiscriminantKind 0
assoc DiscriminantKind Discriminant
lang Unsize Unsize
lang PointeeTrait Pointee
lang DiscriminantKind DiscriminantKind

// Auto traits: whether a type has one is asked of its fields, unless there is an impl for a type with its head.
trait 9 Send 0 auto unsafe by_head
trait 9 Sync 0 auto unsafe by_head
trait 9 Unpin 0 auto by_head

// Data types.
adt 9 PhantomData 1 phantom
adt 9 ManuallyDrop 1 manually_drop
field ManuallyDrop #0
sized ManuallyDrop #0
adt 9 Box 1 fundamental
field Box *const #0
adt 9 Pin 1 fundamental
field Pin #0
adt 9 Vec 1
field Vec *const #0
adt 9 String 0
field String Vec u8
adt 9 Option 1 enum
field Option #0
adt 9 Result 2 enum
field Result #0
field Result #1
adt 9 Rc 1
field Rc *const #0
adt 9 Arc 1
field Arc *const #0
adt 9 UnsafeCell 1
field UnsafeCell #0
sized UnsafeCell #0
adt 9 Cell 1
field Cell UnsafeCell #0
sized Cell #0

// Boxes can be called where what they hold can.
impl 9 fn_box 2 + Fn Box #0 #1
iwhere fn_box Tuple #1
iwhere fn_box Fn #0 #1
impl 9 fn_mut_box 2 + FnMut Box #0 #1
iwhere fn_mut_box Tuple #1
iwhere fn_mut_box FnMut #0 #1
impl 9 fn_once_box 2 + FnOnce Box #0 #1
iwhere fn_once_box Tuple #1
iwhere fn_once_box FnOnce #0 #1
value fn_once_box Output Output #0 #1

// Who is `Send` and `Sync` otherwise than its fields say.
impl 9 const_not_send 1 - Send *const #0
impl 9 mut_not_send 1 - Send *mut #0
impl 9 const_not_sync 1 - Sync *const #0
impl 9 mut_not_sync 1 - Sync *mut #0
impl 9 ref_send 1 + Send & #0
iwhere ref_send Sync #0
impl 9 box_send 1 + Send Box #0
iwhere box_send Send #0
impl 9 box_sync 1 + Sync Box #0
iwhere box_sync Sync #0
impl 9 vec_send 1 + Send Vec #0
iwhere vec_send Sized #0
iwhere vec_send Send #0
impl 9 vec_sync 1 + Sync Vec #0
iwhere vec_sync Sized #0
iwhere vec_sync Sync #0
impl 9 rc_not_send 1 - Send Rc #0
impl 9 rc_not_sync 1 - Sync Rc #0
impl 9 arc_send 1 + Send Arc #0
iwhere arc_send Sync #0
iwhere arc_send Send #0
impl 9 arc_sync 1 + Sync Arc #0
iwhere arc_sync Sync #0
iwhere arc_sync Send #0
impl 9 unsafe_cell_not_sync 1 - Sync UnsafeCell #0
impl 9 cell_send 1 + Send Cell #0
iwhere cell_send Send #0
impl 9 cell_not_sync 1 - Sync Cell #0
impl 9 box_unpin 1 + Unpin Box #0
impl 9 ref_unpin 1 + Unpin & #0
impl 9 ref_mut_unpin 1 + Unpin &mut #0

// `Clone` and `Copy`. Tuples and functions have them by rules of the language, arrays by impls over their lengths.
impl 9 clone_array tc + Clone [#1] #0
iwhere clone_array Clone #0
impl 9 copy_array tc + Copy [#1] #0
iwhere copy_array Copy #0
impl 9 clone_bool 0 + Clone bool
impl 9 copy_bool 0 + Copy bool
impl 9 clone_char 0 + Clone char
impl 9 copy_char 0 + Copy char
impl 9 clone_never 0 + Clone !
impl 9 copy_never 0 + Copy !
impl 9 clone_i8 0 + Clone i8
impl 9 copy_i8 0 + Copy i8
impl 9 clone_i16 0 + Clone i16
impl 9 copy_i16 0 + Copy i16
impl 9 clone_i32 0 + Clone i32
impl 9 copy_i32 0 + Copy i32
impl 9 clone_i64 0 + Clone i64
impl 9 copy_i64 0 + Copy i64
impl 9 clone_i128 0 + Clone i128
impl 9 copy_i128 0 + Copy i128
impl 9 clone_isize 0 + Clone isize
impl 9 copy_isize 0 + Copy isize
impl 9 clone_u8 0 + Clone u8
impl 9 copy_u8 0 + Copy u8
impl 9 clone_u16 0 + Clone u16
impl 9 copy_u16 0 + Copy u16
impl 9 clone_u32 0 + Clone u32
impl 9 copy_u32 0 + Copy u32
impl 9 clone_u64 0 + Clone u64
impl 9 copy_u64 0 + Copy u64
impl 9 clone_u128 0 + Clone u128
impl 9 copy_u128 0 + Copy u128
impl 9 clone_usize 0 + Clone usize
impl 9 copy_usize 0 + Copy usize
impl 9 clone_f16 0 + Clone f16
impl 9 copy_f16 0 + Copy f16
impl 9 clone_f32 0 + Clone f32
impl 9 copy_f32 0 + Copy f32
impl 9 clone_f64 0 + Clone f64
impl 9 copy_f64 0 + Copy f64
impl 9 clone_f128 0 + Clone f128
impl 9 copy_f128 0 + Copy f128
impl 9 clone_const 1 + Clone *const #0
impl 9 copy_const 1 + Copy *const #0
impl 9 clone_mut 1 + Clone *mut #0
impl 9 copy_mut 1 + Copy *mut #0
impl 9 clone_ref 1 + Clone & #0
impl 9 copy_ref 1 + Copy & #0
impl 9 ref_mut_not_clone 1 - Clone &mut #0
impl 9 clone_phantom 1 + Clone PhantomData #0
impl 9 copy_phantom 1 + Copy PhantomData #0
impl 9 clone_manually 1 + Clone ManuallyDrop #0
iwhere clone_manually Clone #0
impl 9 copy_manually 1 + Copy ManuallyDrop #0
iwhere copy_manually Copy #0
impl 9 clone_box 1 + Clone Box #0
iwhere clone_box Clone #0
impl 9 clone_pin 1 + Clone Pin #0
iwhere clone_pin Clone #0
impl 9 copy_pin 1 + Copy Pin #0
iwhere copy_pin Copy #0
impl 9 clone_vec 1 + Clone Vec #0
iwhere clone_vec Clone #0
impl 9 clone_string 0 + Clone String
impl 9 clone_option 1 + Clone Option #0
iwhere clone_option Clone #0
impl 9 copy_option 1 + Copy Option #0
iwhere copy_option Copy #0
impl 9 clone_result 2 + Clone Result #0 #1
iwhere clone_result Clone #0
iwhere clone_result Clone #1
impl 9 copy_result 2 + Copy Result #0 #1
iwhere copy_result Copy #0
iwhere copy_result Copy #1
impl 9 clone_rc 1 + Clone Rc #0
impl 9 clone_arc 1 + Clone Arc #0
impl 9 clone_cell 1 + Clone Cell #0
iwhere clone_cell Copy #0

// `Drop`.
impl 9 drop_box 1 + Drop Box #0
impl 9 drop_vec 1 + Drop Vec #0
impl 9 drop_rc 1 + Drop Rc #0
impl 9 drop_arc 1 + Drop Arc #0

// What goes over things, and what is made of what.
trait 9 Iterator 0 dyn
assoc Iterator Item
bound Item Sized Item #0
trait 9 IntoIterator 0
super IntoIterator Sized #0
assoc IntoIterator IntoIter
assoc IntoIterator Element
trait 9 From 1
super From Sized #0
where From Sized #1
trait 9 Into 1
super Into Sized #0
where Into Sized #1
impl 9 from_same 1 + From #0 #0
iwhere from_same Sized #0
impl 9 into_by_from 2 + Into #0 #1
iwhere into_by_from Sized #0
iwhere into_by_from Sized #1
iwhere into_by_from From #1 #0
impl 9 option_from 1 + From Option #0 #0
iwhere option_from Sized #0
impl 9 box_from 1 + From Box #0 #0
iwhere box_from Sized #0
impl 9 from_never 1 reservation From #0 !
iwhere from_never Sized #0

// Traits that have an impl for each reference, or for each type with another trait.
trait 9 Deref 0 dyn
assoc Deref Target
impl 9 deref_ref 1 + Deref & #0
value deref_ref Target #0
impl 9 deref_ref_mut 1 + Deref &mut #0
value deref_ref_mut Target #0
impl 9 deref_box 1 + Deref Box #0
value deref_box Target #0
trait 9 Debug 0 dyn
trait 9 Display 0 dyn
impl 9 display_ref 1 + Display & #0
iwhere display_ref Display #0
impl 9 display_ref_mut 1 + Display &mut #0
iwhere display_ref_mut Display #0
impl 9 display_box 1 + Display Box #0
iwhere display_box Display #0
impl 9 display_str 0 + Display str
impl 9 display_string 0 + Display String
impl 9 display_bool 0 + Display bool
impl 9 display_char 0 + Display char
impl 9 display_i8 0 + Display i8
impl 9 display_i16 0 + Display i16
impl 9 display_i32 0 + Display i32
impl 9 display_i64 0 + Display i64
impl 9 display_i128 0 + Display i128
impl 9 display_isize 0 + Display isize
impl 9 display_u8 0 + Display u8
impl 9 display_u16 0 + Display u16
impl 9 display_u32 0 + Display u32
impl 9 display_u64 0 + Display u64
impl 9 display_u128 0 + Display u128
impl 9 display_usize 0 + Display usize
impl 9 display_f32 0 + Display f32
impl 9 display_f64 0 + Display f64
trait 9 ToString 0 dyn
impl 9 to_string_by_display 1 + ToString #0
iwhere to_string_by_display Display #0
trait 9 AsRef 1 dyn
impl 9 as_ref_ref 2 + AsRef & #0 #1
iwhere as_ref_ref AsRef #0 #1
trait 9 Borrow 1 dyn
impl 9 borrow_same 1 + Borrow #0 #0
impl 9 borrow_ref 1 + Borrow & #0 #0
trait 9 Any 0 dyn
impl 9 any 1 + Any #0
trait 9 Error 0 dyn
super Error Debug #0
super Error Display #0

// Equality, order and what is the default. Of tuples those with three members at most are here.
trait 9 PartialEq 1 dyn
trait 9 Eq 0
super Eq PartialEq #0 #0
trait 9 PartialOrd 1 dyn
super PartialOrd PartialEq #0 #1
trait 9 Ord 0
super Ord Eq #0
super Ord PartialOrd #0 #0
trait 9 Default 0
super Default Sized #0
impl 9 partial_eq_bool 0 + PartialEq bool bool
impl 9 eq_bool 0 + Eq bool
impl 9 partial_ord_bool 0 + PartialOrd bool bool
impl 9 ord_bool 0 + Ord bool
impl 9 default_bool 0 + Default bool
impl 9 partial_eq_char 0 + PartialEq char char
impl 9 eq_char 0 + Eq char
impl 9 partial_ord_char 0 + PartialOrd char char
impl 9 ord_char 0 + Ord char
impl 9 default_char 0 + Default char
impl 9 partial_eq_i8 0 + PartialEq i8 i8
impl 9 eq_i8 0 + Eq i8
impl 9 partial_ord_i8 0 + PartialOrd i8 i8
impl 9 ord_i8 0 + Ord i8
impl 9 default_i8 0 + Default i8
impl 9 partial_eq_i16 0 + PartialEq i16 i16
impl 9 eq_i16 0 + Eq i16
impl 9 partial_ord_i16 0 + PartialOrd i16 i16
impl 9 ord_i16 0 + Ord i16
impl 9 default_i16 0 + Default i16
impl 9 partial_eq_i32 0 + PartialEq i32 i32
impl 9 eq_i32 0 + Eq i32
impl 9 partial_ord_i32 0 + PartialOrd i32 i32
impl 9 ord_i32 0 + Ord i32
impl 9 default_i32 0 + Default i32
impl 9 partial_eq_i64 0 + PartialEq i64 i64
impl 9 eq_i64 0 + Eq i64
impl 9 partial_ord_i64 0 + PartialOrd i64 i64
impl 9 ord_i64 0 + Ord i64
impl 9 default_i64 0 + Default i64
impl 9 partial_eq_i128 0 + PartialEq i128 i128
impl 9 eq_i128 0 + Eq i128
impl 9 partial_ord_i128 0 + PartialOrd i128 i128
impl 9 ord_i128 0 + Ord i128
impl 9 default_i128 0 + Default i128
impl 9 partial_eq_isize 0 + PartialEq isize isize
impl 9 eq_isize 0 + Eq isize
impl 9 partial_ord_isize 0 + PartialOrd isize isize
impl 9 ord_isize 0 + Ord isize
impl 9 default_isize 0 + Default isize
impl 9 partial_eq_u8 0 + PartialEq u8 u8
impl 9 eq_u8 0 + Eq u8
impl 9 partial_ord_u8 0 + PartialOrd u8 u8
impl 9 ord_u8 0 + Ord u8
impl 9 default_u8 0 + Default u8
impl 9 partial_eq_u16 0 + PartialEq u16 u16
impl 9 eq_u16 0 + Eq u16
impl 9 partial_ord_u16 0 + PartialOrd u16 u16
impl 9 ord_u16 0 + Ord u16
impl 9 default_u16 0 + Default u16
impl 9 partial_eq_u32 0 + PartialEq u32 u32
impl 9 eq_u32 0 + Eq u32
impl 9 partial_ord_u32 0 + PartialOrd u32 u32
impl 9 ord_u32 0 + Ord u32
impl 9 default_u32 0 + Default u32
impl 9 partial_eq_u64 0 + PartialEq u64 u64
impl 9 eq_u64 0 + Eq u64
impl 9 partial_ord_u64 0 + PartialOrd u64 u64
impl 9 ord_u64 0 + Ord u64
impl 9 default_u64 0 + Default u64
impl 9 partial_eq_u128 0 + PartialEq u128 u128
impl 9 eq_u128 0 + Eq u128
impl 9 partial_ord_u128 0 + PartialOrd u128 u128
impl 9 ord_u128 0 + Ord u128
impl 9 default_u128 0 + Default u128
impl 9 partial_eq_usize 0 + PartialEq usize usize
impl 9 eq_usize 0 + Eq usize
impl 9 partial_ord_usize 0 + PartialOrd usize usize
impl 9 ord_usize 0 + Ord usize
impl 9 default_usize 0 + Default usize
impl 9 partial_eq_f16 0 + PartialEq f16 f16
impl 9 partial_ord_f16 0 + PartialOrd f16 f16
impl 9 default_f16 0 + Default f16
impl 9 partial_eq_f32 0 + PartialEq f32 f32
impl 9 partial_ord_f32 0 + PartialOrd f32 f32
impl 9 default_f32 0 + Default f32
impl 9 partial_eq_f64 0 + PartialEq f64 f64
impl 9 partial_ord_f64 0 + PartialOrd f64 f64
impl 9 default_f64 0 + Default f64
impl 9 partial_eq_f128 0 + PartialEq f128 f128
impl 9 partial_ord_f128 0 + PartialOrd f128 f128
impl 9 default_f128 0 + Default f128
impl 9 partial_eq_str 0 + PartialEq str str
impl 9 eq_str 0 + Eq str
impl 9 partial_ord_str 0 + PartialOrd str str
impl 9 ord_str 0 + Ord str
impl 9 partial_eq_string 0 + PartialEq String String
impl 9 eq_string 0 + Eq String
impl 9 partial_ord_string 0 + PartialOrd String String
impl 9 ord_string 0 + Ord String
impl 9 default_string 0 + Default String
impl 9 partial_eq_never 0 + PartialEq ! !
impl 9 eq_never 0 + Eq !
impl 9 partial_ord_never 0 + PartialOrd ! !
impl 9 ord_never 0 + Ord !
impl 9 partial_eq_unit 0 + PartialEq (0) (0)
impl 9 eq_unit 0 + Eq (0)
impl 9 partial_ord_unit 0 + PartialOrd (0) (0)
impl 9 ord_unit 0 + Ord (0)
impl 9 default_unit 0 + Default (0)
impl 9 partial_eq_string_str 0 + PartialEq String str
impl 9 partial_eq_string_ref_str 0 + PartialEq String & str
impl 9 partial_eq_str_string 0 + PartialEq str String
impl 9 partial_eq_ref_str_string 0 + PartialEq & str String
impl 9 default_ref_str 0 + Default & str
impl 9 default_ref_mut_str 0 + Default &mut str
impl 9 partial_eq_tuple_1 1 + PartialEq (1) #0 (1) #0
iwhere partial_eq_tuple_1 Sized #0
iwhere partial_eq_tuple_1 PartialEq #0 #0
impl 9 eq_tuple_1 1 + Eq (1) #0
iwhere eq_tuple_1 Sized #0
iwhere eq_tuple_1 Eq #0
impl 9 partial_ord_tuple_1 1 + PartialOrd (1) #0 (1) #0
iwhere partial_ord_tuple_1 Sized #0
iwhere partial_ord_tuple_1 PartialOrd #0 #0
impl 9 ord_tuple_1 1 + Ord (1) #0
iwhere ord_tuple_1 Sized #0
iwhere ord_tuple_1 Ord #0
impl 9 default_tuple_1 1 + Default (1) #0
iwhere default_tuple_1 Default #0
impl 9 partial_eq_tuple_2 2 + PartialEq (2) #0 #1 (2) #0 #1
iwhere partial_eq_tuple_2 Sized #0
iwhere partial_eq_tuple_2 PartialEq #0 #0
iwhere partial_eq_tuple_2 Sized #1
iwhere partial_eq_tuple_2 PartialEq #1 #1
impl 9 eq_tuple_2 2 + Eq (2) #0 #1
iwhere eq_tuple_2 Sized #0
iwhere eq_tuple_2 Eq #0
iwhere eq_tuple_2 Sized #1
iwhere eq_tuple_2 Eq #1
impl 9 partial_ord_tuple_2 2 + PartialOrd (2) #0 #1 (2) #0 #1
iwhere partial_ord_tuple_2 Sized #0
iwhere partial_ord_tuple_2 PartialOrd #0 #0
iwhere partial_ord_tuple_2 Sized #1
iwhere partial_ord_tuple_2 PartialOrd #1 #1
impl 9 ord_tuple_2 2 + Ord (2) #0 #1
iwhere ord_tuple_2 Sized #0
iwhere ord_tuple_2 Ord #0
iwhere ord_tuple_2 Sized #1
iwhere ord_tuple_2 Ord #1
impl 9 default_tuple_2 2 + Default (2) #0 #1
iwhere default_tuple_2 Default #0
iwhere default_tuple_2 Default #1
impl 9 partial_eq_tuple_3 3 + PartialEq (3) #0 #1 #2 (3) #0 #1 #2
iwhere partial_eq_tuple_3 Sized #0
iwhere partial_eq_tuple_3 PartialEq #0 #0
iwhere partial_eq_tuple_3 Sized #1
iwhere partial_eq_tuple_3 PartialEq #1 #1
iwhere partial_eq_tuple_3 Sized #2
iwhere partial_eq_tuple_3 PartialEq #2 #2
impl 9 eq_tuple_3 3 + Eq (3) #0 #1 #2
iwhere eq_tuple_3 Sized #0
iwhere eq_tuple_3 Eq #0
iwhere eq_tuple_3 Sized #1
iwhere eq_tuple_3 Eq #1
iwhere eq_tuple_3 Sized #2
iwhere eq_tuple_3 Eq #2
impl 9 partial_ord_tuple_3 3 + PartialOrd (3) #0 #1 #2 (3) #0 #1 #2
iwhere partial_ord_tuple_3 Sized #0
iwhere partial_ord_tuple_3 PartialOrd #0 #0
iwhere partial_ord_tuple_3 Sized #1
iwhere partial_ord_tuple_3 PartialOrd #1 #1
iwhere partial_ord_tuple_3 Sized #2
iwhere partial_ord_tuple_3 PartialOrd #2 #2
impl 9 ord_tuple_3 3 + Ord (3) #0 #1 #2
iwhere ord_tuple_3 Sized #0
iwhere ord_tuple_3 Ord #0
iwhere ord_tuple_3 Sized #1
iwhere ord_tuple_3 Ord #1
iwhere ord_tuple_3 Sized #2
iwhere ord_tuple_3 Ord #2
impl 9 default_tuple_3 3 + Default (3) #0 #1 #2
iwhere default_tuple_3 Default #0
iwhere default_tuple_3 Default #1
iwhere default_tuple_3 Default #2
impl 9 partial_eq_const 1 + PartialEq *const #0 *const #0
impl 9 eq_const 1 + Eq *const #0
impl 9 partial_ord_const 1 + PartialOrd *const #0 *const #0
impl 9 ord_const 1 + Ord *const #0
impl 9 partial_eq_mut 1 + PartialEq *mut #0 *mut #0
impl 9 eq_mut 1 + Eq *mut #0
impl 9 partial_ord_mut 1 + PartialOrd *mut #0 *mut #0
impl 9 ord_mut 1 + Ord *mut #0
impl 9 partial_eq_ref 2 + PartialEq & #0 & #1
iwhere partial_eq_ref PartialEq #0 #1
impl 9 partial_eq_ref_mut 2 + PartialEq &mut #0 &mut #1
iwhere partial_eq_ref_mut PartialEq #0 #1
impl 9 partial_eq_ref_ref_mut 2 + PartialEq & #0 &mut #1
iwhere partial_eq_ref_ref_mut PartialEq #0 #1
impl 9 partial_eq_ref_mut_ref 2 + PartialEq &mut #0 & #1
iwhere partial_eq_ref_mut_ref PartialEq #0 #1
impl 9 eq_ref 1 + Eq & #0
iwhere eq_ref Eq #0
impl 9 eq_ref_mut 1 + Eq &mut #0
iwhere eq_ref_mut Eq #0
impl 9 partial_ord_ref 2 + PartialOrd & #0 & #1
iwhere partial_ord_ref PartialOrd #0 #1
impl 9 partial_ord_ref_mut 2 + PartialOrd &mut #0 &mut #1
iwhere partial_ord_ref_mut PartialOrd #0 #1
impl 9 ord_ref 1 + Ord & #0
iwhere ord_ref Ord #0
impl 9 ord_ref_mut 1 + Ord &mut #0
iwhere ord_ref_mut Ord #0
impl 9 partial_eq_slice 2 + PartialEq [] #0 [] #1
iwhere partial_eq_slice Sized #0
iwhere partial_eq_slice Sized #1
iwhere partial_eq_slice PartialEq #0 #1
impl 9 partial_eq_array ttc + PartialEq [#2] #0 [#2] #1
iwhere partial_eq_array Sized #0
iwhere partial_eq_array Sized #1
iwhere partial_eq_array PartialEq #0 #1
impl 9 partial_eq_array_slice ttc + PartialEq [#2] #0 [] #1
iwhere partial_eq_array_slice Sized #0
iwhere partial_eq_array_slice Sized #1
iwhere partial_eq_array_slice PartialEq #0 #1
impl 9 partial_eq_slice_array ttc + PartialEq [] #0 [#2] #1
iwhere partial_eq_slice_array Sized #0
iwhere partial_eq_slice_array Sized #1
iwhere partial_eq_slice_array PartialEq #0 #1
impl 9 partial_eq_array_ref_slice ttc + PartialEq [#2] #0 & [] #1
iwhere partial_eq_array_ref_slice Sized #0
iwhere partial_eq_array_ref_slice Sized #1
iwhere partial_eq_array_ref_slice PartialEq #0 #1
impl 9 partial_eq_ref_slice_array ttc + PartialEq & [] #0 [#2] #1
iwhere partial_eq_ref_slice_array Sized #0
iwhere partial_eq_ref_slice_array Sized #1
iwhere partial_eq_ref_slice_array PartialEq #0 #1
impl 9 partial_eq_array_ref_mut_slice ttc + PartialEq [#2] #0 &mut [] #1
iwhere partial_eq_array_ref_mut_slice Sized #0
iwhere partial_eq_array_ref_mut_slice Sized #1
iwhere partial_eq_array_ref_mut_slice PartialEq #0 #1
impl 9 partial_eq_ref_mut_slice_array ttc + PartialEq &mut [] #0 [#2] #1
iwhere partial_eq_ref_mut_slice_array Sized #0
iwhere partial_eq_ref_mut_slice_array Sized #1
iwhere partial_eq_ref_mut_slice_array PartialEq #0 #1
impl 9 partial_eq_vec 2 + PartialEq Vec #0 Vec #1
iwhere partial_eq_vec Sized #0
iwhere partial_eq_vec Sized #1
iwhere partial_eq_vec PartialEq #0 #1
impl 9 partial_eq_vec_ref_slice 2 + PartialEq Vec #0 & [] #1
iwhere partial_eq_vec_ref_slice Sized #0
iwhere partial_eq_vec_ref_slice Sized #1
iwhere partial_eq_vec_ref_slice PartialEq #0 #1
impl 9 partial_eq_vec_ref_mut_slice 2 + PartialEq Vec #0 &mut [] #1
iwhere partial_eq_vec_ref_mut_slice Sized #0
iwhere partial_eq_vec_ref_mut_slice Sized #1
iwhere partial_eq_vec_ref_mut_slice PartialEq #0 #1
impl 9 partial_eq_ref_slice_vec 2 + PartialEq & [] #0 Vec #1
iwhere partial_eq_ref_slice_vec Sized #0
iwhere partial_eq_ref_slice_vec Sized #1
iwhere partial_eq_ref_slice_vec PartialEq #0 #1
impl 9 partial_eq_ref_mut_slice_vec 2 + PartialEq &mut [] #0 Vec #1
iwhere partial_eq_ref_mut_slice_vec Sized #0
iwhere partial_eq_ref_mut_slice_vec Sized #1
iwhere partial_eq_ref_mut_slice_vec PartialEq #0 #1
impl 9 partial_eq_vec_slice 2 + PartialEq Vec #0 [] #1
iwhere partial_eq_vec_slice Sized #0
iwhere partial_eq_vec_slice Sized #1
iwhere partial_eq_vec_slice PartialEq #0 #1
impl 9 partial_eq_slice_vec 2 + PartialEq [] #0 Vec #1
iwhere partial_eq_slice_vec Sized #0
iwhere partial_eq_slice_vec Sized #1
iwhere partial_eq_slice_vec PartialEq #0 #1
impl 9 partial_eq_vec_array ttc + PartialEq Vec #0 [#2] #1
iwhere partial_eq_vec_array Sized #0
iwhere partial_eq_vec_array Sized #1
iwhere partial_eq_vec_array PartialEq #0 #1
impl 9 partial_eq_vec_ref_array ttc + PartialEq Vec #0 & [#2] #1
iwhere partial_eq_vec_ref_array Sized #0
iwhere partial_eq_vec_ref_array Sized #1
iwhere partial_eq_vec_ref_array PartialEq #0 #1
impl 9 eq_slice 1 + Eq [] #0
iwhere eq_slice Sized #0
iwhere eq_slice Eq #0
impl 9 partial_ord_slice 1 + PartialOrd [] #0 [] #0
iwhere partial_ord_slice Sized #0
iwhere partial_ord_slice PartialOrd #0 #0
impl 9 ord_slice 1 + Ord [] #0
iwhere ord_slice Sized #0
iwhere ord_slice Ord #0
impl 9 eq_array tc + Eq [#1] #0
iwhere eq_array Sized #0
iwhere eq_array Eq #0
impl 9 partial_ord_array tc + PartialOrd [#1] #0 [#1] #0
iwhere partial_ord_array Sized #0
iwhere partial_ord_array PartialOrd #0 #0
impl 9 ord_array tc + Ord [#1] #0
iwhere ord_array Sized #0
iwhere ord_array Ord #0
impl 9 eq_vec 1 + Eq Vec #0
iwhere eq_vec Sized #0
iwhere eq_vec Eq #0
impl 9 partial_ord_vec 1 + PartialOrd Vec #0 Vec #0
iwhere partial_ord_vec Sized #0
iwhere partial_ord_vec PartialOrd #0 #0
impl 9 ord_vec 1 + Ord Vec #0
iwhere ord_vec Sized #0
iwhere ord_vec Ord #0
impl 9 default_ref_slice 1 + Default & [] #0
iwhere default_ref_slice Sized #0
impl 9 default_ref_mut_slice 1 + Default &mut [] #0
iwhere default_ref_mut_slice Sized #0
impl 9 default_vec 1 + Default Vec #0
iwhere default_vec Sized #0
impl 9 default_array_0 1 + Default [0] #0
iwhere default_array_0 Sized #0
impl 9 default_array_1 1 + Default [1] #0
iwhere default_array_1 Default #0
impl 9 default_array_2 1 + Default [2] #0
iwhere default_array_2 Default #0
impl 9 default_array_3 1 + Default [3] #0
iwhere default_array_3 Default #0
impl 9 default_array_4 1 + Default [4] #0
iwhere default_array_4 Default #0
impl 9 default_array_5 1 + Default [5] #0
iwhere default_array_5 Default #0
impl 9 default_array_6 1 + Default [6] #0
iwhere default_array_6 Default #0
impl 9 default_array_7 1 + Default [7] #0
iwhere default_array_7 Default #0
impl 9 default_array_8 1 + Default [8] #0
iwhere default_array_8 Default #0
impl 9 default_array_9 1 + Default [9] #0
iwhere default_array_9 Default #0
impl 9 default_array_10 1 + Default [10] #0
iwhere default_array_10 Default #0
impl 9 default_array_11 1 + Default [11] #0
iwhere default_array_11 Default #0
impl 9 default_array_12 1 + Default [12] #0
iwhere default_array_12 Default #0
impl 9 default_array_13 1 + Default [13] #0
iwhere default_array_13 Default #0
impl 9 default_array_14 1 + Default [14] #0
iwhere default_array_14 Default #0
impl 9 default_array_15 1 + Default [15] #0
iwhere default_array_15 Default #0
impl 9 default_array_16 1 + Default [16] #0
iwhere default_array_16 Default #0
impl 9 default_array_17 1 + Default [17] #0
iwhere default_array_17 Default #0
impl 9 default_array_18 1 + Default [18] #0
iwhere default_array_18 Default #0
impl 9 default_array_19 1 + Default [19] #0
iwhere default_array_19 Default #0
impl 9 default_array_20 1 + Default [20] #0
iwhere default_array_20 Default #0
impl 9 default_array_21 1 + Default [21] #0
iwhere default_array_21 Default #0
impl 9 default_array_22 1 + Default [22] #0
iwhere default_array_22 Default #0
impl 9 default_array_23 1 + Default [23] #0
iwhere default_array_23 Default #0
impl 9 default_array_24 1 + Default [24] #0
iwhere default_array_24 Default #0
impl 9 default_array_25 1 + Default [25] #0
iwhere default_array_25 Default #0
impl 9 default_array_26 1 + Default [26] #0
iwhere default_array_26 Default #0
impl 9 default_array_27 1 + Default [27] #0
iwhere default_array_27 Default #0
impl 9 default_array_28 1 + Default [28] #0
iwhere default_array_28 Default #0
impl 9 default_array_29 1 + Default [29] #0
iwhere default_array_29 Default #0
impl 9 default_array_30 1 + Default [30] #0
iwhere default_array_30 Default #0
impl 9 default_array_31 1 + Default [31] #0
iwhere default_array_31 Default #0
impl 9 default_array_32 1 + Default [32] #0
iwhere default_array_32 Default #0
impl 9 partial_eq_box 1 + PartialEq Box #0 Box #0
iwhere partial_eq_box PartialEq #0 #0
impl 9 eq_box 1 + Eq Box #0
iwhere eq_box Eq #0
impl 9 partial_ord_box 1 + PartialOrd Box #0 Box #0
iwhere partial_ord_box PartialOrd #0 #0
impl 9 ord_box 1 + Ord Box #0
iwhere ord_box Ord #0
impl 9 default_box 1 + Default Box #0
iwhere default_box Default #0
impl 9 default_box_slice 1 + Default Box [] #0
iwhere default_box_slice Sized #0
impl 9 default_box_str 0 + Default Box str
impl 9 partial_eq_rc 1 + PartialEq Rc #0 Rc #0
iwhere partial_eq_rc PartialEq #0 #0
impl 9 eq_rc 1 + Eq Rc #0
iwhere eq_rc Eq #0
impl 9 partial_ord_rc 1 + PartialOrd Rc #0 Rc #0
iwhere partial_ord_rc PartialOrd #0 #0
impl 9 ord_rc 1 + Ord Rc #0
iwhere ord_rc Ord #0
impl 9 default_rc 1 + Default Rc #0
iwhere default_rc Default #0
impl 9 default_rc_slice 1 + Default Rc [] #0
iwhere default_rc_slice Sized #0
impl 9 default_rc_str 0 + Default Rc str
impl 9 partial_eq_arc 1 + PartialEq Arc #0 Arc #0
iwhere partial_eq_arc PartialEq #0 #0
impl 9 eq_arc 1 + Eq Arc #0
iwhere eq_arc Eq #0
impl 9 partial_ord_arc 1 + PartialOrd Arc #0 Arc #0
iwhere partial_ord_arc PartialOrd #0 #0
impl 9 ord_arc 1 + Ord Arc #0
iwhere ord_arc Ord #0
impl 9 default_arc 1 + Default Arc #0
iwhere default_arc Default #0
impl 9 default_arc_slice 1 + Default Arc [] #0
iwhere default_arc_slice Sized #0
impl 9 default_arc_str 0 + Default Arc str
impl 9 partial_eq_phantom 1 + PartialEq PhantomData #0 PhantomData #0
impl 9 eq_phantom 1 + Eq PhantomData #0
impl 9 partial_ord_phantom 1 + PartialOrd PhantomData #0 PhantomData #0
impl 9 ord_phantom 1 + Ord PhantomData #0
impl 9 default_phantom 1 + Default PhantomData #0
impl 9 partial_eq_manually 1 + PartialEq ManuallyDrop #0 ManuallyDrop #0
iwhere partial_eq_manually PartialEq #0 #0
impl 9 eq_manually 1 + Eq ManuallyDrop #0
iwhere eq_manually Eq #0
impl 9 partial_ord_manually 1 + PartialOrd ManuallyDrop #0 ManuallyDrop #0
iwhere partial_ord_manually PartialOrd #0 #0
impl 9 ord_manually 1 + Ord ManuallyDrop #0
iwhere ord_manually Ord #0
impl 9 default_manually 1 + Default ManuallyDrop #0
iwhere default_manually Default #0
impl 9 partial_eq_option 1 + PartialEq Option #0 Option #0
iwhere partial_eq_option Sized #0
iwhere partial_eq_option PartialEq #0 #0
impl 9 eq_option 1 + Eq Option #0
iwhere eq_option Sized #0
iwhere eq_option Eq #0
impl 9 partial_ord_option 1 + PartialOrd Option #0 Option #0
iwhere partial_ord_option Sized #0
iwhere partial_ord_option PartialOrd #0 #0
impl 9 ord_option 1 + Ord Option #0
iwhere ord_option Sized #0
iwhere ord_option Ord #0
impl 9 default_option 1 + Default Option #0
iwhere default_option Sized #0
impl 9 partial_eq_result 2 + PartialEq Result #0 #1 Result #0 #1
iwhere partial_eq_result Sized #0
iwhere partial_eq_result Sized #1
iwhere partial_eq_result PartialEq #0 #0
iwhere partial_eq_result PartialEq #1 #1
impl 9 eq_result 2 + Eq Result #0 #1
iwhere eq_result Sized #0
iwhere eq_result Sized #1
iwhere eq_result Eq #0
iwhere eq_result Eq #1
impl 9 partial_ord_result 2 + PartialOrd Result #0 #1 Result #0 #1
iwhere partial_ord_result Sized #0
iwhere partial_ord_result Sized #1
iwhere partial_ord_result PartialOrd #0 #0
iwhere partial_ord_result PartialOrd #1 #1
impl 9 ord_result 2 + Ord Result #0 #1
iwhere ord_result Sized #0
iwhere ord_result Sized #1
iwhere ord_result Ord #0
iwhere ord_result Ord #1
impl 9 partial_eq_cell 1 + PartialEq Cell #0 Cell #0
iwhere partial_eq_cell PartialEq #0 #0
iwhere partial_eq_cell Copy #0
impl 9 eq_cell 1 + Eq Cell #0
iwhere eq_cell Eq #0
iwhere eq_cell Copy #0
impl 9 partial_ord_cell 1 + PartialOrd Cell #0 Cell #0
iwhere partial_ord_cell PartialOrd #0 #0
iwhere partial_ord_cell Copy #0
impl 9 ord_cell 1 + Ord Cell #0
iwhere ord_cell Ord #0
iwhere ord_cell Copy #0
impl 9 default_cell 1 + Default Cell #0
iwhere default_cell Default #0
impl 9 default_unsafe_cell 1 + Default UnsafeCell #0
iwhere default_unsafe_cell Default #0

// What else can be dereferenced, also so that it may be changed.
impl 9 deref_string 0 + Deref String
value deref_string Target str
impl 9 deref_vec 1 + Deref Vec #0
iwhere deref_vec Sized #0
value deref_vec Target [] #0
impl 9 deref_rc 1 + Deref Rc #0
value deref_rc Target #0
impl 9 deref_arc 1 + Deref Arc #0
value deref_arc Target #0
impl 9 deref_manually 1 + Deref ManuallyDrop #0
value deref_manually Target #0
impl 9 deref_pin 1 + Deref Pin #0
iwhere deref_pin Sized #0
iwhere deref_pin Deref #0
value deref_pin Target Target #0
trait 9 DerefMut 0 dyn
super DerefMut Deref #0
impl 9 deref_mut_ref 1 - DerefMut & #0
impl 9 deref_mut_ref_mut 1 + DerefMut &mut #0
impl 9 deref_mut_box 1 + DerefMut Box #0
impl 9 deref_mut_string 0 + DerefMut String
impl 9 deref_mut_vec 1 + DerefMut Vec #0
iwhere deref_mut_vec Sized #0
impl 9 deref_mut_manually 1 + DerefMut ManuallyDrop #0

// Going over vectors, slices and arrays.
adt 9 vec::IntoIter 1
field vec::IntoIter *const #0
adt 9 slice::Iter 1
field slice::Iter *const #0
adt 9 slice::IterMut 1
field slice::IterMut *const #0
adt 9 array::IntoIter tc
field array::IntoIter *const #0
impl 9 iterator_ref_mut 1 + Iterator &mut #0
iwhere iterator_ref_mut Iterator #0
value iterator_ref_mut Item Item #0
impl 9 iterator_box 1 + Iterator Box #0
iwhere iterator_box Iterator #0
value iterator_box Item Item #0
impl 9 iterator_vec 1 + Iterator vec::IntoIter #0
iwhere iterator_vec Sized #0
value iterator_vec Item #0
impl 9 iterator_slice 1 + Iterator slice::Iter #0
iwhere iterator_slice Sized #0
value iterator_slice Item & #0
impl 9 iterator_slice_mut 1 + Iterator slice::IterMut #0
iwhere iterator_slice_mut Sized #0
value iterator_slice_mut Item &mut #0
impl 9 iterator_array tc + Iterator array::IntoIter #0 #1
iwhere iterator_array Sized #0
value iterator_array Item #0
impl 9 into_iter_vec 1 + IntoIterator Vec #0
iwhere into_iter_vec Sized #0
value into_iter_vec IntoIter vec::IntoIter #0
value into_iter_vec Element #0
impl 9 into_iter_vec_ref 1 + IntoIterator & Vec #0
iwhere into_iter_vec_ref Sized #0
value into_iter_vec_ref IntoIter slice::Iter #0
value into_iter_vec_ref Element & #0
impl 9 into_iter_vec_ref_mut 1 + IntoIterator &mut Vec #0
iwhere into_iter_vec_ref_mut Sized #0
value into_iter_vec_ref_mut IntoIter slice::IterMut #0
value into_iter_vec_ref_mut Element &mut #0
impl 9 into_iter_slice_ref 1 + IntoIterator & [] #0
iwhere into_iter_slice_ref Sized #0
value into_iter_slice_ref IntoIter slice::Iter #0
value into_iter_slice_ref Element & #0
impl 9 into_iter_slice_ref_mut 1 + IntoIterator &mut [] #0
iwhere into_iter_slice_ref_mut Sized #0
value into_iter_slice_ref_mut IntoIter slice::IterMut #0
value into_iter_slice_ref_mut Element &mut #0
impl 9 into_iter_array tc + IntoIterator [#1] #0
iwhere into_iter_array Sized #0
value into_iter_array IntoIter array::IntoIter #0 #1
value into_iter_array Element #0
impl 9 into_iter_array_ref tc + IntoIterator & [#1] #0
iwhere into_iter_array_ref Sized #0
value into_iter_array_ref IntoIter slice::Iter #0
value into_iter_array_ref Element & #0
impl 9 into_iter_array_ref_mut tc + IntoIterator &mut [#1] #0
iwhere into_iter_array_ref_mut Sized #0
value into_iter_array_ref_mut IntoIter slice::IterMut #0
value into_iter_array_ref_mut Element &mut #0

// What is borrowed, and what is seen as something else.
impl 9 borrow_ref_mut 1 + Borrow &mut #0 #0
impl 9 borrow_vec 1 + Borrow Vec #0 [] #0
iwhere borrow_vec Sized #0
impl 9 borrow_array tc + Borrow [#1] #0 [] #0
iwhere borrow_array Sized #0
impl 9 borrow_string 0 + Borrow String str
impl 9 borrow_box 1 + Borrow Box #0 #0
impl 9 borrow_rc 1 + Borrow Rc #0 #0
impl 9 borrow_arc 1 + Borrow Arc #0 #0
impl 9 as_ref_ref_mut 2 + AsRef &mut #0 #1
iwhere as_ref_ref_mut AsRef #0 #1
impl 9 as_ref_slice 1 + AsRef [] #0 [] #0
iwhere as_ref_slice Sized #0
impl 9 as_ref_array tc + AsRef [#1] #0 [] #0
iwhere as_ref_array Sized #0
impl 9 as_ref_vec 1 + AsRef Vec #0 Vec #0
iwhere as_ref_vec Sized #0
impl 9 as_ref_vec_slice 1 + AsRef Vec #0 [] #0
iwhere as_ref_vec_slice Sized #0
impl 9 as_ref_str 0 + AsRef str str
impl 9 as_ref_str_bytes 0 + AsRef str [] u8
impl 9 as_ref_string 0 + AsRef String str
impl 9 as_ref_string_bytes 0 + AsRef String [] u8
impl 9 as_ref_box 1 + AsRef Box #0 #0
impl 9 as_ref_rc 1 + AsRef Rc #0 #0
impl 9 as_ref_arc 1 + AsRef Arc #0 #0

// `Debug`, `Display` and `Error` of all types above. Of tuples those with three members at most are here, as below.
impl 9 debug_manually_drop 1 + Debug ManuallyDrop #0
iwhere debug_manually_drop Debug #0
impl 9 debug_phantom_data 1 + Debug PhantomData #0
impl 9 debug_cell 1 + Debug Cell #0
iwhere debug_cell Sized #0
iwhere debug_cell Copy #0
iwhere debug_cell Debug #0
impl 9 debug_unsafe_cell 1 + Debug UnsafeCell #0
impl 9 debug_option 1 + Debug Option #0
iwhere debug_option Sized #0
iwhere debug_option Debug #0
impl 9 debug_pin 1 + Debug Pin #0
iwhere debug_pin Sized #0
iwhere debug_pin Debug #0
impl 9 debug_result 2 + Debug Result #0 #1
iwhere debug_result Sized #0
iwhere debug_result Sized #1
iwhere debug_result Debug #0
iwhere debug_result Debug #1
impl 9 debug_array ct + Debug [#0] #1
iwhere debug_array Sized #1
iwhere debug_array Debug #1
impl 9 debug_f32 0 + Debug f32
impl 9 debug_f64 0 + Debug f64
impl 9 debug_f16 0 + Debug f16
impl 9 debug_f128 0 + Debug f128
impl 9 debug_i8 0 + Debug i8
impl 9 debug_i16 0 + Debug i16
impl 9 debug_i32 0 + Debug i32
impl 9 debug_i64 0 + Debug i64
impl 9 debug_i128 0 + Debug i128
impl 9 debug_isize 0 + Debug isize
impl 9 debug_u8 0 + Debug u8
impl 9 debug_u16 0 + Debug u16
impl 9 debug_u32 0 + Debug u32
impl 9 debug_u64 0 + Debug u64
impl 9 debug_u128 0 + Debug u128
impl 9 debug_usize 0 + Debug usize
impl 9 debug_ref 1 + Debug & #0
iwhere debug_ref Debug #0
impl 9 debug_ref_mut 1 + Debug &mut #0
iwhere debug_ref_mut Debug #0
impl 9 debug_never 0 + Debug !
impl 9 debug_bool 0 + Debug bool
impl 9 debug_str 0 + Debug str
impl 9 debug_char 0 + Debug char
impl 9 debug_const 1 + Debug *const #0
impl 9 debug_mut 1 + Debug *mut #0
impl 9 debug_tuple_3 3 + Debug (3) #0 #1 #2
iwhere debug_tuple_3 Sized #0
iwhere debug_tuple_3 Sized #1
iwhere debug_tuple_3 Sized #2
iwhere debug_tuple_3 Debug #0
iwhere debug_tuple_3 Debug #1
iwhere debug_tuple_3 Debug #2
impl 9 debug_tuple_2 2 + Debug (2) #0 #1
iwhere debug_tuple_2 Sized #0
iwhere debug_tuple_2 Sized #1
iwhere debug_tuple_2 Debug #0
iwhere debug_tuple_2 Debug #1
impl 9 debug_tuple_1 1 + Debug (1) #0
iwhere debug_tuple_1 Sized #0
iwhere debug_tuple_1 Debug #0
impl 9 debug_slice 1 + Debug [] #0
iwhere debug_slice Sized #0
iwhere debug_slice Debug #0
impl 9 debug_unit 0 + Debug (0)
impl 9 debug_box 1 + Debug Box #0
iwhere debug_box Debug #0
impl 9 debug_rc 1 + Debug Rc #0
iwhere debug_rc Debug #0
impl 9 debug_string 0 + Debug String
impl 9 debug_arc 1 + Debug Arc #0
iwhere debug_arc Debug #0
impl 9 debug_vec 1 + Debug Vec #0
iwhere debug_vec Sized #0
iwhere debug_vec Debug #0
impl 9 debug_vec_iter 1 + Debug vec::IntoIter #0
iwhere debug_vec_iter Sized #0
iwhere debug_vec_iter Debug #0
impl 9 debug_slice_iter 1 + Debug slice::Iter #0
iwhere debug_slice_iter Sized #0
iwhere debug_slice_iter Debug #0
impl 9 debug_slice_iter_mut 1 + Debug slice::IterMut #0
iwhere debug_slice_iter_mut Sized #0
iwhere debug_slice_iter_mut Debug #0
impl 9 debug_array_iter tc + Debug array::IntoIter #0 #1
iwhere debug_array_iter Sized #0
iwhere debug_array_iter Debug #0
impl 9 debug_any 0 + Debug dyn(1) Any
impl 9 debug_send_any 0 + Debug dyn(2) Any Send
impl 9 debug_sync_any 0 + Debug dyn(3) Any Send Sync
impl 9 display_pin 1 + Display Pin #0
iwhere display_pin Sized #0
iwhere display_pin Display #0
impl 9 display_f16 0 + Display f16
impl 9 display_never 0 + Display !
impl 9 display_rc 1 + Display Rc #0
iwhere display_rc Display #0
impl 9 display_arc 1 + Display Arc #0
iwhere display_arc Display #0
impl 9 error_never 0 + Error !
impl 9 error_ref 1 + Error & #0
iwhere error_ref Error #0
impl 9 error_box 1 + Error Box #0
iwhere error_box Sized #0
iwhere error_box Error #0
impl 9 error_arc 1 + Error Arc #0
iwhere error_arc Error #0

// What is made of what: numbers, texts, tuples and arrays, and what holds another type.
impl 9 from_u8_bool 0 + From u8 bool
impl 9 from_u16_bool 0 + From u16 bool
impl 9 from_u32_bool 0 + From u32 bool
impl 9 from_u64_bool 0 + From u64 bool
impl 9 from_u128_bool 0 + From u128 bool
impl 9 from_usize_bool 0 + From usize bool
impl 9 from_i8_bool 0 + From i8 bool
impl 9 from_i16_bool 0 + From i16 bool
impl 9 from_i32_bool 0 + From i32 bool
impl 9 from_i64_bool 0 + From i64 bool
impl 9 from_i128_bool 0 + From i128 bool
impl 9 from_isize_bool 0 + From isize bool
impl 9 from_u16_u8 0 + From u16 u8
impl 9 from_u32_u8 0 + From u32 u8
impl 9 from_u64_u8 0 + From u64 u8
impl 9 from_u128_u8 0 + From u128 u8
impl 9 from_usize_u8 0 + From usize u8
impl 9 from_u32_u16 0 + From u32 u16
impl 9 from_u64_u16 0 + From u64 u16
impl 9 from_u128_u16 0 + From u128 u16
impl 9 from_u64_u32 0 + From u64 u32
impl 9 from_u128_u32 0 + From u128 u32
impl 9 from_u128_u64 0 + From u128 u64
impl 9 from_i16_i8 0 + From i16 i8
impl 9 from_i32_i8 0 + From i32 i8
impl 9 from_i64_i8 0 + From i64 i8
impl 9 from_i128_i8 0 + From i128 i8
impl 9 from_isize_i8 0 + From isize i8
impl 9 from_i32_i16 0 + From i32 i16
impl 9 from_i64_i16 0 + From i64 i16
impl 9 from_i128_i16 0 + From i128 i16
impl 9 from_i64_i32 0 + From i64 i32
impl 9 from_i128_i32 0 + From i128 i32
impl 9 from_i128_i64 0 + From i128 i64
impl 9 from_i16_u8 0 + From i16 u8
impl 9 from_i32_u8 0 + From i32 u8
impl 9 from_i64_u8 0 + From i64 u8
impl 9 from_i128_u8 0 + From i128 u8
impl 9 from_i32_u16 0 + From i32 u16
impl 9 from_i64_u16 0 + From i64 u16
impl 9 from_i128_u16 0 + From i128 u16
impl 9 from_i64_u32 0 + From i64 u32
impl 9 from_i128_u32 0 + From i128 u32
impl 9 from_i128_u64 0 + From i128 u64
impl 9 from_usize_u16 0 + From usize u16
impl 9 from_isize_u8 0 + From isize u8
impl 9 from_isize_i16 0 + From isize i16
impl 9 from_f16_i8 0 + From f16 i8
impl 9 from_f32_i8 0 + From f32 i8
impl 9 from_f64_i8 0 + From f64 i8
impl 9 from_f128_i8 0 + From f128 i8
impl 9 from_f32_i16 0 + From f32 i16
impl 9 from_f64_i16 0 + From f64 i16
impl 9 from_f128_i16 0 + From f128 i16
impl 9 from_f64_i32 0 + From f64 i32
impl 9 from_f128_i32 0 + From f128 i32
impl 9 from_f128_i64 0 + From f128 i64
impl 9 from_f16_u8 0 + From f16 u8
impl 9 from_f32_u8 0 + From f32 u8
impl 9 from_f64_u8 0 + From f64 u8
impl 9 from_f128_u8 0 + From f128 u8
impl 9 from_f32_u16 0 + From f32 u16
impl 9 from_f64_u16 0 + From f64 u16
impl 9 from_f128_u16 0 + From f128 u16
impl 9 from_f64_u32 0 + From f64 u32
impl 9 from_f128_u32 0 + From f128 u32
impl 9 from_f128_u64 0 + From f128 u64
impl 9 from_f64_f16 0 + From f64 f16
impl 9 from_f128_f16 0 + From f128 f16
impl 9 from_f64_f32 0 + From f64 f32
impl 9 from_f128_f32 0 + From f128 f32
impl 9 from_f128_f64 0 + From f128 f64
impl 9 from_f16_bool 0 + From f16 bool
impl 9 from_f32_bool 0 + From f32 bool
impl 9 from_f64_bool 0 + From f64 bool
impl 9 from_f128_bool 0 + From f128 bool
impl 9 from_cell 1 + From Cell #0 #0
iwhere from_cell Sized #0
impl 9 from_unsafe_cell 1 + From UnsafeCell #0 #0
iwhere from_unsafe_cell Sized #0
impl 9 from_u32_char 0 + From u32 char
impl 9 from_u64_char 0 + From u64 char
impl 9 from_u128_char 0 + From u128 char
impl 9 from_char_u8 0 + From char u8
impl 9 from_option_ref_ref_option 1 + From Option & #0 & Option #0
iwhere from_option_ref_ref_option Sized #0
impl 9 from_option_ref_mut_ref_mut_option 1 + From Option &mut #0 &mut Option #0
iwhere from_option_ref_mut_ref_mut_option Sized #0
impl 9 from_tuple_1_array_1 1 + From (1) #0 [1] #0
iwhere from_tuple_1_array_1 Sized #0
impl 9 from_array_1_tuple_1 1 + From [1] #0 (1) #0
iwhere from_array_1_tuple_1 Sized #0
impl 9 from_tuple_2_array_2 1 + From (2) #0 #0 [2] #0
iwhere from_tuple_2_array_2 Sized #0
impl 9 from_array_2_tuple_2 1 + From [2] #0 (2) #0 #0
iwhere from_array_2_tuple_2 Sized #0
impl 9 from_tuple_3_array_3 1 + From (3) #0 #0 #0 [3] #0
iwhere from_tuple_3_array_3 Sized #0
impl 9 from_array_3_tuple_3 1 + From [3] #0 (3) #0 #0 #0
iwhere from_array_3_tuple_3 Sized #0
impl 9 from_pin_box_box 1 + From Pin Box #0 Box #0
impl 9 from_box_slice_ref_slice 1 + From Box [] #0 & [] #0
iwhere from_box_slice_ref_slice Sized #0
iwhere from_box_slice_ref_slice Clone #0
impl 9 from_box_slice_ref_mut_slice 1 + From Box [] #0 &mut [] #0
iwhere from_box_slice_ref_mut_slice Sized #0
iwhere from_box_slice_ref_mut_slice Clone #0
impl 9 from_box_str_ref_str 0 + From Box str & str
impl 9 from_box_str_ref_mut_str 0 + From Box str &mut str
impl 9 from_box_slice_u8_box_str 0 + From Box [] u8 Box str
impl 9 from_box_slice_array tc + From Box [] #0 [#1] #0
iwhere from_box_slice_array Sized #0
impl 9 from_rc_box 1 + From Rc #0 Box #0
impl 9 from_string_box_str 0 + From String Box str
impl 9 from_box_str_string 0 + From Box str String
impl 9 from_arc_box 1 + From Arc #0 Box #0
impl 9 from_vec_box_slice 1 + From Vec #0 Box [] #0
iwhere from_vec_box_slice Sized #0
impl 9 from_box_slice_vec 1 + From Box [] #0 Vec #0
iwhere from_box_slice_vec Sized #0
impl 9 from_rc 1 + From Rc #0 #0
iwhere from_rc Sized #0
impl 9 from_rc_slice_array tc + From Rc [] #0 [#1] #0
iwhere from_rc_slice_array Sized #0
impl 9 from_rc_slice_ref_slice 1 + From Rc [] #0 & [] #0
iwhere from_rc_slice_ref_slice Sized #0
iwhere from_rc_slice_ref_slice Clone #0
impl 9 from_rc_slice_ref_mut_slice 1 + From Rc [] #0 &mut [] #0
iwhere from_rc_slice_ref_mut_slice Sized #0
iwhere from_rc_slice_ref_mut_slice Clone #0
impl 9 from_rc_str_ref_str 0 + From Rc str & str
impl 9 from_rc_str_ref_mut_str 0 + From Rc str &mut str
impl 9 from_rc_str_string 0 + From Rc str String
impl 9 from_rc_slice_vec 1 + From Rc [] #0 Vec #0
iwhere from_rc_slice_vec Sized #0
impl 9 from_rc_slice_u8_rc_str 0 + From Rc [] u8 Rc str
impl 9 from_string_ref_str 0 + From String & str
impl 9 from_string_ref_mut_str 0 + From String &mut str
impl 9 from_string_ref_string 0 + From String & String
impl 9 from_vec_u8_string 0 + From Vec u8 String
impl 9 from_string_char 0 + From String char
impl 9 from_arc_str_string 0 + From Arc str String
impl 9 from_arc 1 + From Arc #0 #0
iwhere from_arc Sized #0
impl 9 from_arc_slice_array tc + From Arc [] #0 [#1] #0
iwhere from_arc_slice_array Sized #0
impl 9 from_arc_slice_ref_slice 1 + From Arc [] #0 & [] #0
iwhere from_arc_slice_ref_slice Sized #0
iwhere from_arc_slice_ref_slice Clone #0
impl 9 from_arc_slice_ref_mut_slice 1 + From Arc [] #0 &mut [] #0
iwhere from_arc_slice_ref_mut_slice Sized #0
iwhere from_arc_slice_ref_mut_slice Clone #0
impl 9 from_arc_str_ref_str 0 + From Arc str & str
impl 9 from_arc_str_ref_mut_str 0 + From Arc str &mut str
impl 9 from_arc_slice_vec 1 + From Arc [] #0 Vec #0
iwhere from_arc_slice_vec Sized #0
impl 9 from_arc_slice_u8_arc_str 0 + From Arc [] u8 Arc str
impl 9 from_vec_ref_slice 1 + From Vec #0 & [] #0
iwhere from_vec_ref_slice Sized #0
iwhere from_vec_ref_slice Clone #0
impl 9 from_vec_ref_mut_slice 1 + From Vec #0 &mut [] #0
iwhere from_vec_ref_mut_slice Sized #0
iwhere from_vec_ref_mut_slice Clone #0
impl 9 from_vec_ref_array tc + From Vec #0 & [#1] #0
iwhere from_vec_ref_array Sized #0
iwhere from_vec_ref_array Clone #0
impl 9 from_vec_ref_mut_array tc + From Vec #0 &mut [#1] #0
iwhere from_vec_ref_mut_array Sized #0
iwhere from_vec_ref_mut_array Clone #0
impl 9 from_vec_array tc + From Vec #0 [#1] #0
iwhere from_vec_array Sized #0
impl 9 from_vec_u8_ref_str 0 + From Vec u8 & str

// Hashes, and what is made of what an iterator goes over.
trait 9 Hash 0
trait 9 FromIterator 1
super FromIterator Sized #0
impl 9 hash_manually_drop 1 + Hash ManuallyDrop #0
iwhere hash_manually_drop Hash #0
impl 9 hash_phantom_data 1 + Hash PhantomData #0
impl 9 hash_option 1 + Hash Option #0
iwhere hash_option Sized #0
iwhere hash_option Hash #0
impl 9 hash_pin 1 + Hash Pin #0
iwhere hash_pin Sized #0
iwhere hash_pin Deref #0
iwhere hash_pin Hash Target #0
impl 9 hash_result 2 + Hash Result #0 #1
iwhere hash_result Sized #0
iwhere hash_result Sized #1
iwhere hash_result Hash #0
iwhere hash_result Hash #1
impl 9 hash_array ct + Hash [#0] #1
iwhere hash_array Sized #1
iwhere hash_array Hash #1
impl 9 hash_u8 0 + Hash u8
impl 9 hash_u16 0 + Hash u16
impl 9 hash_u32 0 + Hash u32
impl 9 hash_u64 0 + Hash u64
impl 9 hash_usize 0 + Hash usize
impl 9 hash_i8 0 + Hash i8
impl 9 hash_i16 0 + Hash i16
impl 9 hash_i32 0 + Hash i32
impl 9 hash_i64 0 + Hash i64
impl 9 hash_isize 0 + Hash isize
impl 9 hash_u128 0 + Hash u128
impl 9 hash_i128 0 + Hash i128
impl 9 hash_bool 0 + Hash bool
impl 9 hash_char 0 + Hash char
impl 9 hash_str 0 + Hash str
impl 9 hash_never 0 + Hash !
impl 9 hash_unit 0 + Hash (0)
impl 9 hash_tuple_1 1 + Hash (1) #0
iwhere hash_tuple_1 Sized #0
iwhere hash_tuple_1 Hash #0
impl 9 hash_tuple_2 2 + Hash (2) #0 #1
iwhere hash_tuple_2 Sized #0
iwhere hash_tuple_2 Sized #1
iwhere hash_tuple_2 Hash #0
iwhere hash_tuple_2 Hash #1
impl 9 hash_tuple_3 3 + Hash (3) #0 #1 #2
iwhere hash_tuple_3 Sized #0
iwhere hash_tuple_3 Sized #1
iwhere hash_tuple_3 Sized #2
iwhere hash_tuple_3 Hash #0
iwhere hash_tuple_3 Hash #1
iwhere hash_tuple_3 Hash #2
impl 9 hash_slice 1 + Hash [] #0
iwhere hash_slice Sized #0
iwhere hash_slice Hash #0
impl 9 hash_ref 1 + Hash & #0
iwhere hash_ref Hash #0
impl 9 hash_ref_mut 1 + Hash &mut #0
iwhere hash_ref_mut Hash #0
impl 9 hash_const 1 + Hash *const #0
impl 9 hash_mut 1 + Hash *mut #0
impl 9 hash_box 1 + Hash Box #0
iwhere hash_box Hash #0
impl 9 hash_rc 1 + Hash Rc #0
iwhere hash_rc Hash #0
impl 9 hash_string 0 + Hash String
impl 9 hash_arc 1 + Hash Arc #0
iwhere hash_arc Hash #0
impl 9 hash_vec 1 + Hash Vec #0
iwhere hash_vec Sized #0
iwhere hash_vec Hash #0
impl 9 from_iterator_option_option 2 + FromIterator Option #0 Option #1
iwhere from_iterator_option_option Sized #1
iwhere from_iterator_option_option Sized #0
iwhere from_iterator_option_option FromIterator #0 #1
impl 9 from_iterator_result_result 3 + FromIterator Result #0 #1 Result #2 #1
iwhere from_iterator_result_result Sized #2
iwhere from_iterator_result_result Sized #1
iwhere from_iterator_result_result Sized #0
iwhere from_iterator_result_result FromIterator #0 #2
impl 9 from_iterator_unit_unit 0 + FromIterator (0) (0)
impl 9 from_iterator_box_slice 1 + FromIterator Box [] #0 #0
iwhere from_iterator_box_slice Sized #0
impl 9 from_iterator_box_str_char 0 + FromIterator Box str char
impl 9 from_iterator_box_str_ref_char 0 + FromIterator Box str & char
impl 9 from_iterator_box_str_ref_str 0 + FromIterator Box str & str
impl 9 from_iterator_box_str_string 0 + FromIterator Box str String
impl 9 from_iterator_box_str_box_str 0 + FromIterator Box str Box str
impl 9 from_iterator_string_box_str 0 + FromIterator String Box str
impl 9 from_iterator_rc_slice 1 + FromIterator Rc [] #0 #0
iwhere from_iterator_rc_slice Sized #0
impl 9 from_iterator_string_char 0 + FromIterator String char
impl 9 from_iterator_string_ref_char 0 + FromIterator String & char
impl 9 from_iterator_string_ref_str 0 + FromIterator String & str
impl 9 from_iterator_string_string 0 + FromIterator String String
impl 9 from_iterator_arc_slice 1 + FromIterator Arc [] #0 #0
iwhere from_iterator_arc_slice Sized #0
impl 9 from_iterator_vec 1 + FromIterator Vec #0 #0
iwhere from_iterator_vec Sized #0

// What else std's impls say of boxes, cells, pins and raw pointers.
impl 9 clone_box_slice 1 + Clone Box [] #0
iwhere clone_box_slice Sized #0
iwhere clone_box_slice Clone #0
impl 9 clone_box_str 0 + Clone Box str
impl 9 default_const 1 + Default *const #0
impl 9 default_mut 1 + Default *mut #0
impl 9 default_pin_box 1 + Default Pin Box #0
iwhere default_pin_box Default Box #0
impl 9 default_pin_rc 1 + Default Pin Rc #0
iwhere default_pin_rc Default Rc #0
impl 9 default_pin_arc 1 + Default Pin Arc #0
iwhere default_pin_arc Default Arc #0
impl 9 deref_mut_pin 1 + DerefMut Pin #0
iwhere deref_mut_pin Sized #0
iwhere deref_mut_pin DerefMut #0
iwhere deref_mut_pin Unpin Target #0
impl 9 partial_eq_pin_pin 2 + PartialEq Pin #0 Pin #1
iwhere partial_eq_pin_pin Sized #0
iwhere partial_eq_pin_pin Sized #1
iwhere partial_eq_pin_pin Deref #0
iwhere partial_eq_pin_pin Deref #1
iwhere partial_eq_pin_pin PartialEq Target #0 Target #1
impl 9 eq_pin 1 + Eq Pin #0
iwhere eq_pin Sized #0
iwhere eq_pin Deref #0
iwhere eq_pin Eq Target #0
impl 9 partial_ord_pin_pin 2 + PartialOrd Pin #0 Pin #1
iwhere partial_ord_pin_pin Sized #0
iwhere partial_ord_pin_pin Sized #1
iwhere partial_ord_pin_pin Deref #0
iwhere partial_ord_pin_pin Deref #1
iwhere partial_ord_pin_pin PartialOrd Target #0 Target #1
impl 9 ord_pin 1 + Ord Pin #0
iwhere ord_pin Sized #0
iwhere ord_pin Deref #0
iwhere ord_pin Ord Target #0
impl 9 unpin_const 1 + Unpin *const #0
impl 9 unpin_mut 1 + Unpin *mut #0
impl 9 unpin_rc 1 + Unpin Rc #0
impl 9 unpin_arc 1 + Unpin Arc #0
impl 9 as_ref_cell_array_array_cell ct + AsRef Cell [#0] #1 [#0] Cell #1
iwhere as_ref_cell_array_array_cell Sized #1
impl 9 as_ref_cell_array_slice_cell ct + AsRef Cell [#0] #1 [] Cell #1
iwhere as_ref_cell_array_slice_cell Sized #1
impl 9 as_ref_cell_slice_slice_cell 1 + AsRef Cell [] #0 [] Cell #0
iwhere as_ref_cell_slice_slice_cell Sized #0

// Impls that may overlap with others of these, as far as another crate can tell. `check` asks nothing of two impls that stand here.
impl 9 into_iter_iterator 1 + IntoIterator #0
iwhere into_iter_iterator Sized #0
iwhere into_iter_iterator Iterator #0
value into_iter_iterator Element Item #0
value into_iter_iterator IntoIter #0
impl 9 into_iter_box_slice 1 + IntoIterator Box [] #0
iwhere into_iter_box_slice Sized #0
value into_iter_box_slice IntoIter vec::IntoIter #0
value into_iter_box_slice Element #0
impl 9 into_iter_ref_box_slice 1 + IntoIterator & Box [] #0
iwhere into_iter_ref_box_slice Sized #0
value into_iter_ref_box_slice IntoIter slice::Iter #0
value into_iter_ref_box_slice Element & #0
impl 9 into_iter_ref_mut_box_slice 1 + IntoIterator &mut Box [] #0
iwhere into_iter_ref_mut_box_slice Sized #0
value into_iter_ref_mut_box_slice IntoIter slice::IterMut #0
value into_iter_ref_mut_box_slice Element &mut #0
impl 9 iterator_not_slice 1 - Iterator [] #0
iwhere iterator_not_slice Sized #0
impl 9 iterator_not_box_slice 1 - Iterator Box [] #0
iwhere iterator_not_box_slice Sized #0
impl 9 iterator_not_ref_box_slice 1 - Iterator & Box [] #0
iwhere iterator_not_ref_box_slice Sized #0
impl 9 iterator_not_ref_mut_box_slice 1 - Iterator &mut Box [] #0
iwhere iterator_not_ref_mut_box_slice Sized #0
impl 9 from_box_error 1 + From Box dyn(1) Error #0
iwhere from_box_error Sized #0
iwhere from_box_error Error #0
impl 9 from_box_error_string 0 + From Box dyn(1) Error String
impl 9 from_box_error_ref_str 0 + From Box dyn(1) Error & str
impl 9 from_box_sync_error 1 + From Box dyn(3) Error Send Sync #0
iwhere from_box_sync_error Sized #0
iwhere from_box_sync_error Error #0
iwhere from_box_sync_error Send #0
iwhere from_box_sync_error Sync #0
impl 9 from_box_sync_error_string 0 + From Box dyn(3) Error Send Sync String
impl 9 from_box_sync_error_ref_str 0 + From Box dyn(3) Error Send Sync & str
impl 9 error_not_ref_str 0 - Error & str
";
