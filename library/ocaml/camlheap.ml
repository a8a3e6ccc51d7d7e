include Camlheap_types

(* A domain with its bed, as the stubs have it. *)
type handle

(* A command as C has it, and what a call answers: its number, and the fields of the reply. *)
type raw = { op : int; dst : int; a : int; b : int; tag : int; n : int; number : int; value : int }
type told = { code : int; kind : int; domain : int; serial : int; number : int; value : int; blocks : int; words : int }

external raw_start : config -> handle array -> int = "camlheap_seat_start"
external raw_none : unit -> handle = "camlheap_seat_none"
external raw_call : handle -> raw -> told = "camlheap_seat_call"
external raw_run : handle -> told = "camlheap_seat_run"
external raw_show : handle -> int -> told = "camlheap_seat_show"
external raw_take_ran : handle -> told = "camlheap_seat_take_ran"
external raw_stats : handle -> stats = "camlheap_seat_stats"
external raw_map_make : handle -> int -> told = "camlheap_seat_map_make"
external raw_map_get : handle -> int -> int -> int -> told = "camlheap_seat_map_get"
external raw_map_bind : handle -> int -> int -> int -> told = "camlheap_seat_map_bind"
external raw_map_sweep : handle -> int -> told = "camlheap_seat_map_sweep"
external raw_map_clean : handle -> int -> told = "camlheap_seat_map_clean"
external raw_map_count : handle -> int -> told = "camlheap_seat_map_count"
external raw_map_take : handle -> int -> int -> told = "camlheap_seat_map_take"
external raw_turn : handle -> int = "camlheap_seat_turn"
external raw_close : handle -> int = "camlheap_seat_close"
external raw_rest : handle -> int = "camlheap_seat_rest"
external raw_resume : handle -> int = "camlheap_seat_resume"
external raw_leave : handle -> int = "camlheap_seat_leave"
external raw_attend : handle -> int = "camlheap_seat_attend"

(* [calls]: what is called as a finaliser has run, by the numbers from [called] on. [told]: the finalisers that have run, with nothing
   to be called, and weren't asked for yet, the newest first. *)
type seat = { it : handle; calls : (int, reply -> unit) Hashtbl.t; mutable next_call : int; mutable told : reply list }

let called = 1 lsl 31
let stats seat = raw_stats seat.it

let raw ?(dst = 0) ?(a = 0) ?(b = 0) ?(tag = 0) ?(n = 0) ?(number = 0) ?(value = 0) op = { op; dst; a; b; tag; n; number; value }

let raw_of = function
  | Put_int { dst; value } -> raw 0 ~dst ~value
  | Copy { dst; src } -> raw 1 ~dst ~a:src
  | Forget { dst } -> raw 2 ~dst
  | Alloc { dst; tag; fields } -> raw 3 ~dst ~tag ~n:fields
  | Alloc_major { dst; tag; fields } -> raw 4 ~dst ~tag ~n:fields
  | Raw { dst; tag; fields } -> raw 5 ~dst ~tag ~n:fields
  | Load { dst; block; index } -> raw 6 ~dst ~a:block ~n:index
  | Store { block; index; item } -> raw 7 ~a:block ~n:index ~b:item
  | Cas { block; index; expected; item } -> raw 8 ~dst:expected ~a:block ~n:index ~b:item
  | Ephe { dst; keys } -> raw 9 ~dst ~n:keys
  | Set_key { ephe; index; item } -> raw 10 ~a:ephe ~n:index ~b:item
  | Unset_key { ephe; index } -> raw 11 ~a:ephe ~n:index
  | Get_key { dst; ephe; index } -> raw 12 ~dst ~a:ephe ~n:index
  | Check_key { ephe; index } -> raw 13 ~a:ephe ~n:index
  | Set_data { ephe; item } -> raw 14 ~a:ephe ~b:item
  | Unset_data { ephe } -> raw 15 ~a:ephe
  | Get_data { dst; ephe } -> raw 16 ~dst ~a:ephe
  | Check_data { ephe } -> raw 17 ~a:ephe
  | Poll -> raw 18
  | Minor -> raw 19
  | Major -> raw 20
  | Full_major -> raw 21
  | Finalise { item; number; dst } -> raw 22 ~dst ~a:item ~number
  | Finalise_last { item; number } -> raw 23 ~a:item ~number

let reply_of { kind; domain; serial; number; value; blocks; words; _ } =
  let label = { domain; serial } in
  match kind with
  | 1 -> Int value
  | 2 -> Block label
  | 9 -> Live { blocks; words }
  | 10 -> Fin { number; label }
  | 11 -> Last { number }
  | kind -> [| Done; Done; Done; Bad_type; Bad_index; Empty; Yes; No; Full |].(kind)

let refuse code =
  let why = [| Is_resting; Closed; Busy; Unfit; No_ephemeron; No_finaliser; No_label; No_register; Memory |] in
  raise (Refused (if code < 25 then why.(code - 16) else if code < 32 then Not_resting else Outside (code - 32)))

let answered told = if told.code = 0 then reply_of told else refuse told.code
let again, waiting, ended, no_ephemeron = (1, 2, 4, 20)

(* Whatever is called as a finaliser has run may raise: that is reported, and the others are called all the same. *)
let report ran error =
  let number = match ran with Fin { number; _ } | Last { number } -> number | _ -> 0 in
  Printf.eprintf "camlheap: what finaliser %d has called raised %s\n%!" number (Printexc.to_string error)

(* Takes the finalisers that have run, and has called what is to be called. *)
let rec hear seat =
  let taken = raw_take_ran seat.it in
  if taken.code = 0 then begin
    let ran = reply_of taken in
    (match Hashtbl.find_opt seat.calls taken.number with
    | Some call ->
        Hashtbl.remove seat.calls taken.number;
        (try call ran with error -> report ran error)
    | None -> seat.told <- ran :: seat.told);
    hear seat
  end

let ran seat =
  hear seat;
  let told = List.rev seat.told in
  seat.told <- [];
  told

let rec until_done pause call handle =
  match call handle with
  | 0 -> ()
  | code when code = again -> pause (); until_done pause call handle
  | code -> refuse code

(* Leaves the domain to the others. One that rests is taken back first; one that has ended, or was left before, holds nothing to leave. *)
let rec leave_handle handle = if raw_resume handle = again || raw_leave handle = again then leave_handle handle

let start config =
  if config.domains < 1 || config.domains > 8 then refuse 33;
  let handles = Array.init config.domains (fun _ -> raw_none ()) in
  let seat it =
    Gc.finalise leave_handle it;
    { it; calls = Hashtbl.create 8; next_call = called; told = [] }
  in
  match raw_start config handles with 0 -> Array.map seat handles | code -> refuse code

let leave seat =
  hear seat;
  leave_handle seat.it

(* Turns a seat that rests, or waits for the others. *)
let wait pause seat = if raw_attend seat.it <> again then pause ()

let make ?(pause = ignore) seat command =
  let rec go told =
    if told.code = waiting then wait pause seat;
    if told.code = again || told.code = waiting then go (raw_run seat.it)
    else begin
      hear seat;
      answered told
    end
  in
  go (raw_call seat.it (raw_of command))

let perform ?pause seat = function
  | (Finalise { number; _ } | Finalise_last { number; _ }) when number >= called -> raise (Refused Unfit)
  | command -> make ?pause seat command

let show seat register = answered (raw_show seat.it register)

(* Registers a finaliser with what is to be called. *)
let register ?pause seat call command =
  let number = seat.next_call in
  seat.next_call <- (if number + 1 < 1 lsl 32 then number + 1 else called);
  Hashtbl.replace seat.calls number call;
  let forget () = Hashtbl.remove seat.calls number in
  match make ?pause seat (command number) with
  | Done -> Done
  | other -> forget (); other
  | exception error -> forget (); raise error

let finalise ?pause seat ~item ~dst call = register ?pause seat call (fun number -> Finalise { item; number; dst })
let finalise_last ?pause seat ~item call = register ?pause seat call (fun number -> Finalise_last { item; number })

module Weak_map = struct
  (* Turns until nothing is left to do. *)
  let rec settle pause seat =
    let turned = raw_turn seat.it in
    if turned = waiting then wait pause seat;
    if turned = again || turned = waiting then settle pause seat else hear seat

  (* Asks a call a few times, each time behind as many turns as there is something to do for. *)
  let rec ask_often pause seat call times =
    let told = call () in
    if told.code <> again || times = 0 then told
    else (
      settle pause seat;
      ask_often pause seat call (times - 1))

  (* Asks it anew while that helps: behind turns, and then behind collections, which make room. *)
  let ask ?(pause = ignore) seat call =
    let behind told room =
      if told.code <> again && told.code <> no_ephemeron then told
      else (
        ignore (perform ~pause seat room);
        ask_often pause seat call 8)
    in
    let told = List.fold_left behind (ask_often pause seat call 8) [ Minor; Full_major ] in
    if told.code = again then raise (Refused Not_now) else answered told

  let make ?pause seat ~dst = ask ?pause seat (fun () -> raw_map_make seat.it dst)
  let find ?pause seat ~map ~key ~dst = ask ?pause seat (fun () -> raw_map_get seat.it dst map key)

  (* A call that makes commands until it is done; other threads of OCaml run meanwhile. *)
  let walk seat told =
    hear seat;
    if told.code = again then raise (Refused Not_now) else answered told

  let replace seat ~map ~key ~item = walk seat (raw_map_bind seat.it map key item)
  let sweep seat ~map = walk seat (raw_map_sweep seat.it map)
  let clean seat ~map = walk seat (raw_map_clean seat.it map)
  let count seat ~map = walk seat (raw_map_count seat.it map)
  let remove ?pause seat ~map ~key = ask ?pause seat (fun () -> raw_map_take seat.it map key)
end

let turn seat =
  let turned = raw_turn seat.it in
  hear seat;
  turned = ended

let finish ?(pause = ignore) seat =
  (match raw_close seat.it with 0 -> () | code -> refuse code);
  while not (turn seat) do
    wait pause seat
  done

let with_seat seat f = Fun.protect ~finally:(fun () -> leave seat) (fun () -> f seat)
let rest ?(pause = ignore) seat = until_done pause raw_rest seat.it

let resume ?(pause = ignore) seat =
  until_done pause raw_resume seat.it;
  hear seat

let said = function
  | Is_resting -> "the seat rests, or was left"
  | Closed -> "the seat takes no command any more"
  | Busy -> "the command before isn't made yet"
  | Unfit -> "a register or number is outside its range"
  | No_ephemeron -> "no room for the ephemeron"
  | No_finaliser -> "no room for the finaliser"
  | No_label -> "no label is left"
  | No_register -> "no such register"
  | Memory -> "memory ran out"
  | Not_resting -> "the seat doesn't rest"
  | Not_now -> "no room, or others have won each time"
  | Outside field -> Printf.sprintf "field %d of the configuration is outside its range" field

let () = Printexc.register_printer (function Refused why -> Some ("Camlheap.Refused: " ^ said why) | _ -> None)
