(* What examples/two_flags.heap does, a million times in compiled code: each of two domains raises a flag of its own, and then looks at
   the other's. How often does neither find the other's flag raised? A script's two `int 0` never come. The flags are integers in
   plain fields, blocks in plain fields (a store of one is caml_modify), or Atomic. Each line counts the four outcomes. *)
let rounds = 1_000_000

(* What each domain found, round by round. Both come to each block of 1,024 rounds at about the same time. *)
let play raise_flag is_raised =
  let arrived = Atomic.make 0 in
  let found = Array.init 2 (fun _ -> Bytes.make rounds '?') in
  let meet count =
    Atomic.incr arrived;
    while Atomic.get arrived < 2 * count do Domain.cpu_relax () done
  in
  let side me () =
    for round = 0 to rounds - 1 do
      if round land 1023 = 0 then meet (1 + (round lsr 10));
      raise_flag me round;
      Bytes.unsafe_set found.(me) round (if is_raised (1 - me) round then '1' else '0')
    done
  in
  let other = Domain.spawn (side 1) in
  side 0 ();
  Domain.join other;
  found

let show what found =
  let count first second =
    let sum = ref 0 in
    for round = 0 to rounds - 1 do
      if Bytes.get found.(0) round = first && Bytes.get found.(1) round = second then incr sum
    done;
    !sum
  in
  Printf.printf "%-7s both found it: %d, one of them: %d, neither: %d\n%!" what (count '1' '1') (count '1' '0' + count '0' '1') (count '0' '0')

type cell = { mutable it : Obj.t }

let flags make = Array.init 2 (fun _ -> Array.init rounds (fun _ -> make ()))

let () =
  let plain = flags (fun () -> ref 0) in
  show "integer" (play (fun me round -> plain.(me).(round) := 1) (fun who round -> !(plain.(who).(round)) = 1));
  let raised = Obj.repr (ref 1) in
  let blocks = flags (fun () -> { it = Obj.repr 0 }) in
  show "block" (play (fun me round -> blocks.(me).(round).it <- raised) (fun who round -> blocks.(who).(round).it == raised));
  let atomic = flags (fun () -> Atomic.make 0) in
  show "Atomic" (play (fun me round -> Atomic.set atomic.(me).(round) 1) (fun who round -> Atomic.get atomic.(who).(round) = 1))
