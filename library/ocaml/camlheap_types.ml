(* What a heap takes and answers. *)

type config = { domains : int; minor_words : int; pools : int; finals : int; ephes : int }

(** The label of a block, which no other block of the heap ever has. *)
type label = { domain : int; serial : int }

(** 0 to 15. *)
type register = int

(** [camlheap.h] says of each what it does and replies. *)
type command =
  | Put_int of { dst : register; value : int }
  | Copy of { dst : register; src : register }
  | Forget of { dst : register }
  | Alloc of { dst : register; tag : int; fields : int }
  | Alloc_major of { dst : register; tag : int; fields : int }
  | Raw of { dst : register; tag : int; fields : int }
  | Load of { dst : register; block : register; index : int }
  | Store of { block : register; index : int; item : register }
  | Cas of { block : register; index : int; expected : register; item : register }
  | Ephe of { dst : register; keys : int }
  | Set_key of { ephe : register; index : int; item : register }
  | Unset_key of { ephe : register; index : int }
  | Get_key of { dst : register; ephe : register; index : int }
  | Check_key of { ephe : register; index : int }
  | Set_data of { ephe : register; item : register }
  | Unset_data of { ephe : register }
  | Get_data of { dst : register; ephe : register }
  | Check_data of { ephe : register }
  | Poll | Minor | Major | Full_major
  | Finalise of { item : register; number : int; dst : register }
  | Finalise_last of { item : register; number : int }

(** [Full]: no room after a complete collection, and no block was made. [Fin]: a [finalise] ran, of this block. [Last]: a
    [finalise_last] ran. *)
type reply =
  | Done | Int of int | Block of label | Bad_type | Bad_index | Empty | Yes | No | Full
  | Live of { blocks : int; words : int }
  | Fin of { number : int; label : label }
  | Last of { number : int }

(** [Not_now]: a call on a weak map finds no room, or others have won each time. [Outside n]: the n-th field of the configuration is
    outside its range. *)
type refused =
  | Is_resting | Closed | Busy | Unfit | No_ephemeron | No_finaliser | No_label | No_register | Memory | Not_resting | Not_now
  | Outside of int

(** Why something wasn't done. Nothing has changed then. *)
exception Refused of refused

type stats = {
  labels : int; young_words : int; remembered : int; ephemerons : int; finals : int; lasts : int; waiting : int; arrivals : int;
}
