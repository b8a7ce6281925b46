(* What a translated script stands on: the values, events and threads of a script, by OCaml's library `Event` over its threads.

   Each run is a process of its own. It is over once all threads but the one that looks sleep in the system (/proc/self/task)
   at three looks one after another, and none has done a step between these looks. A thread that has not ended by then waits.

   `Event` has `wrap_abort` where scripts have nacks. A nack is made of it: a channel on which a thread sends for ever, once
   the branch is given up. *)

type value =
  | Unit | Number of int64 | Truth of bool | Text of string | Pair of value * value
  | Thread of int
  | Chan of int * value Event.channel
  | Event of value Event.event

exception Fault of string
exception Exit_thread
exception Return of value

let kind () = raise (Fault "kind")

(* A run's threads and lines *)

let lock = Mutex.create ()
let lines : string list ref = ref []
let ends : (int, string) Hashtbl.t = Hashtbl.create 8
let chans = ref 0
let steps = ref 0

let at_once body = Mutex.lock lock; let it = body () in Mutex.unlock lock; it

(* What is left to chance: in half of the places no yield, in the others one to four *)
let strew () =
  incr steps;
  if Random.bool () then for _ = 0 to Random.int 4 do Thread.yield () done

let quoted text = "\"" ^ String.concat "\\n" (String.split_on_char '\n' (String.concat "" (List.map (fun c ->
  if c = '"' || c = '\\' then Printf.sprintf "\\%c" c else String.make 1 c) (List.of_seq (String.to_seq text))))) ^ "\""

let rec shown = function
  | Unit -> "()"
  | Number n -> Int64.to_string n
  | Truth b -> string_of_bool b
  | Text s -> quoted s
  | Pair (a, b) -> Printf.sprintf "(pair %s %s)" (shown a) (shown b)
  | Thread n -> Printf.sprintf "(thread %d)" n
  | Chan (n, _) -> Printf.sprintf "(chan %d)" n
  | Event _ -> "event"

let print_line v = at_once (fun () -> lines := (match v with Text s -> s | _ -> shown v) :: !lines; Unit)

let ended body =
  match body () with
  | _ -> "ended"
  | exception Exit_thread -> "ended"
  | exception Fault name -> "fault " ^ name
  | exception other -> "fault " ^ Printexc.to_string other

let numbers : (int * int) list ref = ref []  (* of each thread of the system the script's number *)
let self () = Thread (List.assoc (Thread.id (Thread.self ())) !numbers)

let spawn (f, values) =
  let number = at_once (fun () -> let n = Hashtbl.length ends in Hashtbl.replace ends n "waits"; n) in
  let begun () =
    at_once (fun () -> numbers := (Thread.id (Thread.self ()), number) :: !numbers);
    let word = ended (fun () -> strew (); f values) in
    at_once (fun () -> Hashtbl.replace ends number word) in
  ignore (Thread.create begun ());
  Thread number

let leave () = raise Exit_thread
let yield () = Thread.yield (); Unit

(* Expressions *)

let within exact = if Float.abs exact < 9.2e18 then () else raise (Fault "overflow")
let counted whole rough = function
  | Number a, Number b -> within (rough (Int64.to_float a) (Int64.to_float b)); Number (whole a b)
  | _ -> kind ()
let add = counted Int64.add ( +. )
let subtract = counted Int64.sub ( -. )
let multiply = counted Int64.mul ( *. )
let less = function Number a, Number b -> Truth (Int64.compare a b < 0) | _ -> kind ()
let negated = function Truth b -> Truth (not b) | _ -> kind ()
let first = function Pair (a, _) -> a | _ -> kind ()
let second = function Pair (_, b) -> b | _ -> kind ()
let is_true = function Truth b -> b | _ -> kind ()

let rec same = function
  | Event _, Event _ -> failwith "events can't be compared"
  | Pair (a, b), Pair (c, d) -> same (a, c) && same (b, d)
  | a, b -> shown a = shown b

(* Events *)

let event = function Event e -> e | _ -> kind ()
let done_ e = Event (Event.wrap e (fun () -> Unit))
let sync e = Event.sync (event e)
let always v = Event (Event.always v)
let never () = Event (Event.receive (Event.new_channel ()))
let choose events = Event (Event.choose (List.map event events))
let wrap (e, f, values) = Event (Event.wrap (event e) (fun v -> strew (); f (values @ [v])))
let guard (f, values) = Event (Event.guard (fun () -> strew (); event (f values)))
let withnack (f, values) = Event (Event.guard (fun () ->
  strew ();
  let nack = Event.new_channel () in
  let rec tell () = Event.sync (Event.send nack Unit); tell () in
  Event.wrap_abort (event (f (values @ [Event (Event.receive nack)]))) (fun () -> ignore (Thread.create tell ()))))

let send = function Chan (_, c), v -> done_ (Event.send c v) | _ -> kind ()
let recv = function Chan (_, c) -> Event (Event.receive c) | _ -> kind ()
let new_chan () = at_once (fun () -> incr chans; Chan (!chans - 1, Event.new_channel ()))

(* Runs. Each is told by one line of JSON. *)

let sleeps thread =
  match open_in (Printf.sprintf "/proc/self/task/%s/stat" thread) with
  | exception Sys_error _ -> true
  | file ->
    let stat = try input_line file with End_of_file | Sys_error _ -> ") S" in
    close_in file;
    stat.[String.rindex stat ')' + 2] = 'S'

let idle () =
  let own = string_of_int (Unix.getpid ()) in
  Array.for_all (fun thread -> thread = own || sleeps thread) (Sys.readdir "/proc/self/task")

let rec look quiet before =
  if quiet < 3 then begin
    Thread.delay 0.0005;
    let now = !steps in
    look (if now = before && idle () then quiet + 1 else 0) now
  end

let run main =
  ignore (spawn (main, []));
  look 0 (-1);
  let listed words = "[" ^ String.concat "," (List.map quoted words) ^ "]" in
  let threads = List.init (Hashtbl.length ends) (Hashtbl.find ends) in
  Printf.printf "{\"lines\":%s,\"threads\":%s}\n%!" (listed (List.rev !lines)) (listed threads)

(* Some at a time, since each sleeps most of its time. *)
let rec run_often (times, seed, main) =
  let some = min times 12 in
  let children = List.init some (fun turn ->
    match Unix.fork () with
    | 0 -> Random.init (seed + times - turn); run main; Unix._exit 0
    | child -> child) in
  List.iter (fun child -> ignore (Unix.waitpid [] child)) children;
  if times > some then run_often (times - some, seed, main)
