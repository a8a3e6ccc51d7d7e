(* Plays scripts of version 1 on OCaml 5's own heap, each section in a domain of its own, and prints the replies as `camlheap run`
   does: `ocaml5 can`, `ocaml5 run --domains N`. A block of the script is an OCaml block with one field more, which holds its label and its kind; an ephemeron is one whose
   second field is an `Obj.Ephemeron`. What isn't comparable: `Gc.full_major` goes through up to three cycles, and runs finalisers in
   between; a finaliser may run in the middle of a command; a domain that has ended hands its finalisers on, while those of a script
   never run then; no allocation is refused. `live` is counted where there is one domain, and left out where there are more. *)

type reply = string

let nothing = Obj.repr (ref 0)
let integer n = Obj.repr (n : int)

(* The first field of a block: domain, serial, and whether it is an ephemeron, as an integer. *)
let meta domain serial is_ephemeron =
  integer ((((domain lsl 40) lor serial) lsl 1) lor if is_ephemeron then 1 else 0)

let meta_of block : int = Obj.obj (Obj.field block 0)
let is_block v = Obj.is_block v && v != nothing
let is_ephemeron v = is_block v && meta_of v land 1 = 1
let is_plain v = is_block v && meta_of v land 1 = 0

let label block =
  let m = meta_of block lsr 1 in
  Printf.sprintf "%d:%d" (m lsr 40) (m land 0xFFFFFFFFFF)

let shown v : reply =
  if v == nothing then "none" else if is_block v then "blk " ^ label v else "int " ^ string_of_int (Obj.obj v)

let plain domain serial fields =
  let block = Obj.new_block 0 (fields + 1) in
  for i = 1 to fields do
    Obj.set_field block i (integer 0)
  done;
  Obj.set_field block 0 (meta domain serial false);
  block

let ephemeron domain serial keys =
  let block = Obj.new_block 0 2 in
  Obj.set_field block 1 (Obj.repr (Obj.Ephemeron.create keys));
  Obj.set_field block 0 (meta domain serial true);
  block

let keys_of block : Obj.Ephemeron.t = Obj.obj (Obj.field block 1)

type domain = {
  number : int;
  registers : Obj.t array;
  out : Buffer.t;
  mutable serial : int;
  mutable ended : bool;
  (* Where there is one domain, all blocks that it has made, weakly, with their words. *)
  mutable made : (Obj.t Weak.t * int) list option;
}

let says d (reply : reply) = Buffer.add_string d.out (reply ^ "\n")

(* Notes a block of so many words, where blocks are noted. *)
let note d words block =
  Option.iter
    (fun made ->
      let cell = Weak.create 1 in
      Weak.set cell 0 (Some block);
      d.made <- Some ((cell, words) :: made))
    d.made

(* Puts a new block of so many words into a register. *)
let give d dst words make =
  d.serial <- d.serial + 1;
  let block = make d.number d.serial in
  d.registers.(dst) <- block;
  note d words block;
  "blk " ^ label block

let at_field d s i act : reply =
  let block = d.registers.(s) in
  if not (is_plain block) then "type" else if i + 1 >= Obj.size block then "bounds" else act block

let at_key d e i act : reply =
  let block = d.registers.(e) in
  if not (is_ephemeron block) then "type"
  else
    let keys = keys_of block in
    if i >= Obj.Ephemeron.length keys then "bounds" else act keys

let at_data d e act : reply = if is_ephemeron d.registers.(e) then act (keys_of d.registers.(e)) else "type"

let into d dst found : reply =
  let v = Option.value found ~default:nothing in
  d.registers.(dst) <- v;
  shown v

let yes_or_no b : reply = if b then "yes" else "no"

let finalise d v x dst : reply =
  if not (is_block v) then "type"
  else (
    Gc.finalise
      (fun block ->
        if not d.ended then (
          d.registers.(dst) <- block;
          says d (Printf.sprintf "fin %d %s" x (label block))))
      v;
    "ok")

let finalise_last d v x : reply =
  if not (is_block v) then "type"
  else (
    Gc.finalise_last (fun () -> if not d.ended then says d (Printf.sprintf "last %d" x)) v;
    "ok")

let live d : reply =
  match d.made with
  | None -> "live"
  | Some made ->
      let left = List.filter (fun (cell, _) -> Weak.check cell 0) made in
      d.made <- Some left;
      let words = List.fold_left (fun sum (_, words) -> sum + words) 0 left in
      Printf.sprintf "live %d %d" (List.length left) words

let set d r v : reply =
  d.registers.(r) <- v;
  "ok"

let unit_ok () : reply = "ok"

let carry_out d (word : string) (n : int array) : reply =
  let register r = d.registers.(r) in
  match word with
  | "int" -> set d n.(0) (integer n.(1))
  | "move" -> set d n.(0) (register n.(1))
  | "drop" -> set d n.(0) nothing
  | "alloc" | "allocmaj" -> give d n.(0) (n.(2) + 2) (fun number serial -> plain number serial n.(2))
  | "load" -> at_field d n.(1) n.(2) (fun block -> into d n.(0) (Some (Obj.field block (n.(2) + 1))))
  | "store" ->
      let v = register n.(2) in
      if v == nothing then "type"
      else
        at_field d n.(0) n.(1) (fun block ->
            Obj.set_field block (n.(1) + 1) v;
            "ok")
  | "ephe" -> give d n.(0) (n.(1) + 3) (fun number serial -> ephemeron number serial n.(1))
  | "set_key" ->
      let v = register n.(2) in
      if not (is_block v) then "type" else at_key d n.(0) n.(1) (fun keys -> Obj.Ephemeron.set_key keys n.(1) v; "ok")
  | "unset_key" -> at_key d n.(0) n.(1) (fun keys -> unit_ok (Obj.Ephemeron.unset_key keys n.(1)))
  | "get_key" -> at_key d n.(1) n.(2) (fun keys -> into d n.(0) (Obj.Ephemeron.get_key keys n.(2)))
  | "check_key" -> at_key d n.(0) n.(1) (fun keys -> yes_or_no (Obj.Ephemeron.check_key keys n.(1)))
  | "set_data" ->
      let v = register n.(1) in
      if v == nothing then "type" else at_data d n.(0) (fun keys -> unit_ok (Obj.Ephemeron.set_data keys v))
  | "unset_data" -> at_data d n.(0) (fun keys -> unit_ok (Obj.Ephemeron.unset_data keys))
  | "get_data" -> at_data d n.(1) (fun keys -> into d n.(0) (Obj.Ephemeron.get_data keys))
  | "check_data" -> at_data d n.(0) (fun keys -> yes_or_no (Obj.Ephemeron.check_data keys))
  | "finalise" -> finalise d (register n.(0)) n.(1) n.(2)
  | "finalise_last" -> finalise_last d (register n.(0)) n.(1)
  | "poll" -> unit_ok (Domain.cpu_relax ())
  | "minor" -> unit_ok (Gc.minor ())
  | "major" -> unit_ok (Gc.major ())
  | "full_major" ->
      Gc.full_major ();
      live d
  | _ -> failwith ("no command " ^ word)

let play d lines =
  List.iter
    (fun line ->
      match String.split_on_char ' ' line with
      | [] -> ()
      | word :: numbers -> says d (carry_out d word (Array.of_list (List.map int_of_string numbers))))
    lines;
  d.ended <- true;
  Array.fill d.registers 0 16 nothing

let opening shared made number =
  let registers = Array.make 16 nothing in
  registers.(0) <- shared;
  let d = { number; registers; out = Buffer.create 4096; serial = 0; ended = false; made } in
  note d 18 shared;
  d

(* The sections of a script, each with its lines in order. *)
let sections lines =
  let rec go done_ = function
    | [] -> List.rev_map List.rev done_
    | line :: rest when String.starts_with ~prefix:"domain " line -> go ([] :: done_) rest
    | line :: rest -> (
        match done_ with
        | [] -> go [] rest
        | section :: others -> go ((line :: section) :: others) rest)
  in
  go [] lines

let run () =
  let lines = In_channel.input_all stdin |> String.trim |> String.split_on_char '\n' in
  let parts = sections lines in
  let made = if List.length parts = 1 then Some [] else None in
  let first = opening (plain 0 0 16) made in
  let domains = List.mapi (fun number part -> (first number, part)) parts in
  (match domains with
  | [ (d, part) ] -> play d part
  | _ -> List.map (fun (d, part) -> Domain.spawn (fun () -> play d part)) domains |> List.iter Domain.join);
  List.iter (fun (d, _) -> Printf.printf "domain %d\n%s" d.number (Buffer.contents d.out)) domains

let () =
  match Sys.argv with
  | [| _; "can" |] -> Printf.printf "name OCaml %s\nversions 1\ndomains 8\nprofile ocaml5\nalone full_major\n" Sys.ocaml_version
  | _ -> run ()
