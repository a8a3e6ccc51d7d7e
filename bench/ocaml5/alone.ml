(* OCaml 5's own heap alone: `alone WHAT COUNT TIMES` makes COUNT of something, keeps them, and then makes TIMES collections, of the minor
   heap where WHAT is `minor` or `copies`, and else complete ones. Where WHAT is `lookups` or `picks` it makes no collection, but draws a key
   TIMES times of a table of COUNT ephemerons, and looks it up or doesn't.
   It reads no script, prints nothing, and keeps nothing for itself, as the player does that counts what lives. The blocks are those of
   the scripts of bench/plots.sh, which counts the instructions of both. *)
let zero = Obj.repr 0

(* Blocks, each of which leads to the one that was made before. *)
let chain count block =
  let rec go k rest = if k = count then rest else go (k + 1) (block rest) in
  go 0 zero

type four = { mutable a : Obj.t; mutable b : Obj.t; mutable c : Obj.t; mutable d : Obj.t }

(* What [make] makes, in fields of blocks: 125 in each, and the last field links the blocks. *)
let kept count make =
  let rec go k keeper =
    if k = count then Obj.repr keeper
    else begin
      let keeper = if k mod 125 > 0 then keeper else Array.init 126 (fun i -> if i = 125 then Obj.repr keeper else zero) in
      keeper.(k mod 125) <- make ();
      go (k + 1) keeper
    end
  in
  go 0 [||]

(* An ephemeron whose key is a block that all of them have. *)
let ephemeron key () =
  let it = Obj.Ephemeron.create 1 in
  Obj.Ephemeron.set_key it 0 key;
  Obj.repr it

(* A block with some registrations of a finaliser; another one with as many is dropped. *)
let registered times register () =
  let block () =
    let it = ref zero in
    for _ = 1 to times do register it done;
    Obj.repr it
  in
  ignore (Sys.opaque_identity (block ()));
  block ()

type key = { id : int }

module Table = Ephemeron.K1.Make (struct
  type t = key
  let equal = ( == )
  let hash key = key.id
end)

(* Draws a key so often, as bench/maps does, of a table of so many, and looks it up. *)
let lookups count times look =
  let keys = Array.init count (fun id -> { id }) and table = Table.create count in
  Array.iter (fun key -> Table.add table key 7) keys;
  let drawn = ref 1 in
  for _ = 1 to times do
    drawn := ((!drawn * 1_664_525) + 1_013_904_223) land 0xffffffff;
    let key = keys.(!drawn mod count) in
    if look && Table.find table key <> 7 then exit 3 else ignore (Sys.opaque_identity key)
  done;
  ignore (Sys.opaque_identity (keys, table))

let collections () =
  let count = int_of_string Sys.argv.(2) and key = Obj.repr (Array.make 16 zero) in
  let it = match Sys.argv.(1) with
    | "minor" -> zero
    | "copies" -> chain count (fun rest -> Obj.repr { a = rest; b = zero; c = zero; d = zero })
    | "chain" -> chain count (fun rest -> Obj.repr (ref rest))
    | "ephemerons" -> kept count (ephemeron key)
    | "finalise" -> kept count (registered 1 (Gc.finalise ignore))
    | "finalise_last" -> kept count (registered 1 (Gc.finalise_last (fun () -> ())))
    | "halves" -> kept (count / 4) (registered 2 (Gc.finalise ignore))
    | _ -> exit 2
  in
  let collect = match Sys.argv.(1) with "minor" | "copies" -> Gc.minor | _ -> Gc.full_major in
  let it = Sys.opaque_identity it in
  for _ = 1 to int_of_string Sys.argv.(3) do collect () done;
  ignore (Sys.opaque_identity (it, key))

let () =
  let number at = int_of_string Sys.argv.(at) in
  match Sys.argv.(1) with
  | "lookups" -> lookups (number 2) (number 3) true
  | "picks" -> lookups (number 2) (number 3) false
  | _ -> collections ()
