(** A heap with the rules of OCaml 5's, proved, beside OCaml's own.

    A heap has 1 to 8 domains, each with 16 registers, which are its roots. {!start} answers a seat for each; one thread or
    domain of OCaml at a time calls on a seat. A pause of the collector needs all domains of the heap, so each seat makes
    commands, or takes a {!turn} now and then, until all are {!finish}ed.

    The types are those of [Camlheap_types], whose commands and replies [camlheap.h] explains under the same names, but for [Done],
    its [OK], and [Empty], its [NONE]. A seat that waits calls [pause] again and again, by default [ignore]: with threads of one OCaml
    domain always give [~pause:Thread.yield], to each call that takes it, or a wait lasts until OCaml switches threads by itself. *)

include module type of struct include Camlheap_types end

type seat

(** A heap of this size: a seat for each of its domains, in order. [domains] is 1 to 8; [minor_words], of each, 4096 to 65536 in steps
    of 4096; [pools], of 4096 words, [domains * (minor_words / 4096 + 18) + 1] to 2048; [finals] and [ephes], the room of each domain for
    finalisers and ephemerons, at most 200000. Raises [Refused (Outside n)] for the n-th of these, or [Refused Memory]. *)
val start : config -> seat array

(** Makes a command, and answers its reply. While others are missing in a pause it calls [pause]. Raises [Refused] where the command
    isn't taken, and nothing has changed. *)
val perform : ?pause:(unit -> unit) -> seat -> command -> reply

(** What a register holds: an integer, a block, or nothing. *)
val show : seat -> register -> reply

(** Has a function be called with the reply [Fin], by whoever calls on this seat, once nothing leads to the block in [item] any more;
    register [dst] holds it again then. A collection only finds that: the finaliser runs before the next command or in a {!turn}, so
    [Full_major] and then [Poll] call those of all blocks that nothing leads to. Each registration is called at most once, behind the
    call on the seat in which its finaliser ran; what no collection has found before {!finish} is never called. Several may run before
    the first function is called: where they share a [dst] it holds the last one's block, which stays while it does. The function may
    make commands on the seat, but for one that is called in {!finish}. Raises [Refused No_finaliser] where [finals] registrations
    weren't called or told yet; one can't be taken back. What the function raises is reported on standard
    error. [Done], or [Bad_type] where [item] holds no block. *)
val finalise : ?pause:(unit -> unit) -> seat -> item:register -> dst:register -> (reply -> unit) -> reply

(** The same with the reply [Last], once the block in [item] is gone for good. *)
val finalise_last : ?pause:(unit -> unit) -> seat -> item:register -> (reply -> unit) -> reply

(** The finalisers registered by a number of one's own, by the commands {!Finalise} and {!Finalise_last}, that have run and weren't
    told yet, in order. Numbers below 2{^31} are one's own; the others are [Unfit]. None is lost, in whichever call of the seat it ran. *)
val ran : seat -> reply list

val stats : seat -> stats

(** Weak maps, each in a register: a map keeps neither its keys nor, for a key that nothing else leads to, what the key is bound
    to. It is a block: seats share one through a field, and use it by these calls alone. Registers are below 8. Keep
    nothing in registers 8 to 15 meanwhile: [find] and [remove] use 8 to 11, the others may empty 8 to 15. A call may collect where it
    lacks room. Where a register holds no map [find] and [remove] answer [Empty]; [count] and [sweep] tell, by [Bad_type]. *)
module Weak_map : sig
  (** A new map into a register: its block, or [Full]. *)
  val make : ?pause:(unit -> unit) -> seat -> dst:register -> reply

  (** What the key is bound to, into [dst]: [Int] or [Block]; [Empty] where it isn't, and [Bad_type] where it is no block. *)
  val find : ?pause:(unit -> unit) -> seat -> map:register -> key:register -> dst:register -> reply

  (** Binds the key to what [item] holds: [Done]; [Full] where there is no room; or [Bad_type]. *)
  val replace : seat -> map:register -> key:register -> item:register -> reply

  (** Takes out what is left of keys that are dead: [Int], how much; or [Bad_type] where the register holds no map. {!replace} does so
      by itself where room is short. Registers 8 to 15 are used between, as by [clean] and [count]. *)
  val sweep : seat -> map:register -> reply

  (** The same of a map that no other seat uses meanwhile: blocks of it that hold nothing go too. [Yes] where the map holds nothing
      then, or [No]. *)
  val clean : seat -> map:register -> reply

  (** How many keys are bound: [Int]. *)
  val count : seat -> map:register -> reply

  (** Takes out what the key is bound to: [Done]; [Empty] where it isn't; or [Bad_type]. *)
  val remove : ?pause:(unit -> unit) -> seat -> map:register -> key:register -> reply
end

(** One turn, for whoever has no command now. Answers whether the traces of all seats have ended. *)
val turn : seat -> bool

(** Lets others turn the seat where they wait for it, until [resume]. It can do nothing else meanwhile, and has made no command
    when it is back; finalisers may have [ran]. *)
val rest : ?pause:(unit -> unit) -> seat -> unit

val resume : ?pause:(unit -> unit) -> seat -> unit

(** No command comes any more. Waits until the other seats are finished or left too. The functions of finalisers that waited are
    called in it, and can make no command. *)
val finish : ?pause:(unit -> unit) -> seat -> unit

(** No command comes any more, and the seat is left to the others: they turn it to its end where they wait for it. Nobody hears of
    finalisers that run then. So it is with a seat that OCaml's collector frees. *)
val leave : seat -> unit

(** What the function answers, or raises; the seat is left behind it. To hear of the last finalisers, collect, poll and {!finish} it
    inside. *)
val with_seat : seat -> (seat -> 'a) -> 'a
