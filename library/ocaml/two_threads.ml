(* Two systhreads, a seat each: one shares a block, and a finaliser tells the other when it is gone. *)
open Camlheap

let shared = 0
let block = 1
let note = 2
let is_watched = Atomic.make false
let perform = perform ~pause:Thread.yield
let finish = finish ~pause:Thread.yield

let owner seat =
  ignore (perform seat (Alloc { dst = block; tag = 0; fields = 1 }));
  ignore (perform seat (Put_int { dst = note; value = 42 }));
  ignore (perform seat (Store { block; index = 0; item = note }));
  ignore (perform seat (Store { block = shared; index = 0; item = block }));
  while not (Atomic.get is_watched) do
    ignore (turn seat);
    Thread.yield ()
  done;
  (* Nothing leads to the block any more, once the shared field and this register let it go. *)
  ignore (perform seat (Store { block = shared; index = 0; item = note }));
  ignore (perform seat (Forget { dst = block }));
  ignore (perform seat Full_major);
  finish seat

let rec find seat =
  match perform seat (Load { dst = block; block = shared; index = 0 }) with
  | Block label -> label
  | _ ->
      Thread.yield ();
      find seat

let rec await_last seat =
  ignore (perform seat Poll);
  match ran seat with
  | [ Last { number } ] -> number
  | _ ->
      Thread.yield ();
      await_last seat

let watcher seat =
  let { domain; serial } = find seat in
  (match perform seat (Load { dst = note; block; index = 0 }) with
  | Int value -> Printf.printf "block %d:%d holds %d\n" domain serial value
  | _ -> assert false);
  ignore (perform seat (Finalise_last { item = block; number = 1 }));
  ignore (perform seat (Forget { dst = block }));
  Atomic.set is_watched true;
  Printf.printf "finaliser %d: it is gone\n" (await_last seat);
  finish seat

let () =
  let seats = start { domains = 2; minor_words = 4096; pools = 128; finals = 4; ephes = 4 } in
  let threads = [ Thread.create owner seats.(0); Thread.create watcher seats.(1) ] in
  List.iter Thread.join threads
