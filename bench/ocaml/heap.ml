(* The work of some of the scripts of bench/ocaml.sh, in OCaml. What isn't comparable: a script's commands are read, checked and
   told apart as they run, and each has a reply, while these loops are compiled to machine code; a store of an integer is one
   instruction here and an atomic step there; `Gc.full_major` goes through up to three cycles, while `full_major` makes one with
   two passes of marking; and before OCaml 5 there is one domain, which marks without atomic steps. *)

type block = { mutable a : int; mutable b : int; mutable c : int; mutable d : int }

(* A block of one field, as in a chain. *)
type link = Nothing | Link of link ref

let seconds work =
  let start = Sys.time () in
  work ();
  Sys.time () -. start

let private_blocks count =
  for k = 1 to count do
    let made = Sys.opaque_identity { a = 0; b = 0; c = 0; d = 0 } in
    made.b <- k;
    ignore (Sys.opaque_identity made.b)
  done

let chain count =
  let last = ref Nothing in
  for _ = 1 to count do
    last := Link (ref !last)
  done;
  !last

let key = Obj.repr (ref 0)

(* Makes so many ephemerons, each second one dead at once, the others with one key that lives. *)
let ephemerons count =
  Array.init (count / 2) (fun _ ->
      ignore (Sys.opaque_identity (Obj.Ephemeron.create 1));
      let made = Obj.Ephemeron.create 1 in
      Obj.Ephemeron.set_key made 0 key;
      made)

let ran = ref 0

(* Registers so many finalisers, of which each block has two, and each second block is dead at once. *)
let finalisers count =
  let registered () =
    let made = ref 0 in
    Gc.finalise (fun _ -> incr ran) made;
    Gc.finalise (fun _ -> incr ran) made;
    made
  in
  Array.init (count / 4) (fun _ ->
      ignore (Sys.opaque_identity (registered ()));
      registered ())

let collections times () =
  for _ = 1 to times do
    Gc.full_major ()
  done

(* Prints the nanoseconds of one operation, or of one collection. *)
let () =
  (* The major heap is collected where the program asks for it alone. *)
  Gc.set { (Gc.get ()) with minor_heap_size = 32768; space_overhead = 1_000_000; max_overhead = 1_000_000 };
  let count = int_of_string Sys.argv.(2) and times = int_of_string Sys.argv.(3) in
  let each_collection kept =
    Gc.full_major ();
    let taken = seconds (collections times) /. float times in
    ignore (Sys.opaque_identity (kept, key));
    taken
  in
  let taken =
    match Sys.argv.(1) with
    | "private" -> seconds (fun () -> private_blocks (count * times)) /. float (4 * count * times)
    | "chain" -> each_collection (Obj.repr (chain count))
    | "ephemerons" -> each_collection (Obj.repr (ephemerons count))
    | _ ->
        let kept = finalisers count in
        Gc.minor ();
        let early = !ran in
        let taken = seconds (collections 1) in
        ignore (Sys.opaque_identity kept);
        if early > 0 || !ran <> count / 2 then failwith "finalisers ran at another time";
        taken
  in
  Printf.printf "%.3f\n" (taken *. 1e9)
