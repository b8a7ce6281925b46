(* What a translated script stands on: the values, events and threads of a script, by Concurrent ML as SML/NJ has it.
   A run is one call of `RunCML.doit`, which returns once no thread can go on. A thread that has not ended by then waits.

   Swap channels and multicast channels are written here, as the book on Concurrent ML has them: the first is in no library,
   and the library of the second is not in Debian's package. All else is the library's. *)

(* Values *)

datatype value =
    Unit | Number of IntInf.int | Truth of bool | Text of string | Pair of value * value
  | Thread of int * CML.thread_id
  | Chan of int * value CML.chan
  | Swapchan of int * (value * value CML.chan) CML.chan
  | Ivar of int * value SyncVar.ivar
  | Mvar of int * value SyncVar.mvar
  | Mailbox of int * value Mailbox.mbox
  | Mchan of int * mchan
  | Port of int * port
  | Event of value CML.event
and chain = Chain of (value * chain) SyncVar.ivar
and mchan_request = Message of value | NewPort of value CML.chan * chain SyncVar.mvar
withtype mchan = mchan_request CML.chan * unit CML.chan
and port = value CML.chan * chain SyncVar.mvar

exception Fault of string
exception Exit
exception Return of value

fun kind () = raise Fault "kind"

(* What is left to chance, begun anew for each script *)

val chance = ref (Random.rand (0, 0))
fun among n = Random.randRange (0, n - 1) (!chance)

(* In half of the places no yield, in the others one to four. *)
fun strew () = if among 2 = 0 then () else repeat (1 + among 4)
and repeat 0 = ()
  | repeat n = (CML.yield (); repeat (n - 1))

(* A run's threads and lines *)

val lines : string list ref = ref []
val ends : string list ref = ref []  (* of thread 0 first *)
val threads : (CML.thread_id * value) list ref = ref []
val made : int list ref = ref []

(* The next number of a kind of objects. *)
fun number kind = let
      val n = List.nth (!made, kind)
      fun counted (_, []) = []
        | counted (0, m :: rest) = m + 1 :: rest
        | counted (k, m :: rest) = m :: counted (k - 1, rest)
      in made := counted (kind, !made); n end

fun set_end (n, word) = ends := List.take (!ends, n) @ [word] @ List.drop (!ends, n + 1)

fun shown (Number n) = if n < 0 then "-" ^ IntInf.toString (~ n) else IntInf.toString n
  | shown Unit = "()"
  | shown (Truth b) = Bool.toString b
  | shown (Text s) = "\"" ^ String.translate escaped s ^ "\""
  | shown (Pair (a, b)) = "(pair " ^ shown a ^ " " ^ shown b ^ ")"
  | shown (Thread (n, _)) = object ("thread", n)
  | shown (Chan (n, _)) = object ("chan", n)
  | shown (Swapchan (n, _)) = object ("swapchan", n)
  | shown (Ivar (n, _)) = object ("ivar", n)
  | shown (Mvar (n, _)) = object ("mvar", n)
  | shown (Mailbox (n, _)) = object ("mailbox", n)
  | shown (Mchan (n, _)) = object ("mchan", n)
  | shown (Port (n, _)) = object ("port", n)
  | shown (Event _) = "event"
and object (kind, n) = "(" ^ kind ^ " " ^ Int.toString n ^ ")"
and escaped #"\"" = "\\\""
  | escaped #"\\" = "\\\\"
  | escaped #"\n" = "\\n"
  | escaped c = String.str c

fun print_line (Text s) = (lines := s :: !lines; Unit)
  | print_line v = (lines := shown v :: !lines; Unit)

fun ended body = (body (); "ended")
      handle Exit => "ended"
           | Fault name => "fault " ^ name
           | SyncVar.Put => "fault put"
           | other => "fault " ^ General.exnName other

fun self () = let
      val me = CML.getTid ()
      in case List.find (fn (id, _) => CML.sameTid (id, me)) (!threads) of
            SOME (_, thread) => thread
          | NONE => raise Fail "a thread that is not of the script"
      end

(* The number of a new thread, and what the thread does. *)
fun begun body = let
      val n = length (!ends)
      val () = ends := !ends @ ["waits"]
      fun go () = (threads := (CML.getTid (), Thread (n, CML.getTid ())) :: !threads; set_end (n, ended body))
      in (n, go) end

fun spawn (f, values) = let
      val (n, go) = begun (fn () => (strew (); f values))
      in Thread (n, CML.spawn go) end

(* Expressions *)

val most = IntInf.pow (2, 63) - 1
val least = ~ (IntInf.pow (2, 63))
fun within n = if n < least orelse most < n then raise Fault "overflow" else Number n

fun add (Number a, Number b) = within (a + b) | add _ = kind ()
fun subtract (Number a, Number b) = within (a - b) | subtract _ = kind ()
fun multiply (Number a, Number b) = within (a * b) | multiply _ = kind ()
fun less (Number a, Number b) = Truth (a < b) | less _ = kind ()
fun negated (Truth b) = Truth (not b) | negated _ = kind ()
fun first (Pair (a, _)) = a | first _ = kind ()
fun second (Pair (_, b)) = b | second _ = kind ()
fun is_true (Truth b) = b | is_true _ = kind ()

fun same (Event _, Event _) = raise Fail "events can't be compared"
  | same (Pair (a, b), Pair (c, d)) = same (a, c) andalso same (b, d)
  | same (a, b) = shown a = shown b

(* Events *)

fun event (Event e) = e | event _ = kind ()
fun sync e = CML.sync (event e)
fun always v = Event (CML.alwaysEvt v)
val never = Event CML.never
fun choose events = Event (CML.choose (map event events))
fun wrap (e, f, values) = Event (CML.wrap (event e, fn v => (strew (); f (values @ [v]))))
fun guard (f, values) = Event (CML.guard (fn () => (strew (); event (f values))))
fun withnack (f, values) =
      Event (CML.withNack (fn nack => (strew (); event (f (values @ [Event (CML.wrap (nack, fn () => Unit))])))))

fun done e = Event (CML.wrap (e, fn () => Unit))
fun send (Chan (_, c), v) = done (CML.sendEvt (c, v)) | send _ = kind ()
fun recv (Chan (_, c)) = Event (CML.recvEvt c) | recv _ = kind ()
fun swap (Swapchan (_, c), v) = Event (CML.guard (fn () => let
      val back = CML.channel ()
      in CML.choose [
            CML.wrap (CML.recvEvt c, fn (other, reply) => (CML.send (reply, v); other)),
            CML.wrap (CML.sendEvt (c, (v, back)), fn () => CML.recv back)]
      end))
  | swap _ = kind ()
fun iget (Ivar (_, i)) = Event (SyncVar.iGetEvt i) | iget _ = kind ()
fun mtake (Mvar (_, m)) = Event (SyncVar.mTakeEvt m) | mtake _ = kind ()
fun mget (Mvar (_, m)) = Event (SyncVar.mGetEvt m) | mget _ = kind ()
fun mswap (Mvar (_, m), v) = Event (SyncVar.mSwapEvt (m, v)) | mswap _ = kind ()
fun mailrecv (Mailbox (_, b)) = Event (Mailbox.recvEvt b) | mailrecv _ = kind ()
fun portrecv (Port (_, (out, _))) = Event (CML.recvEvt out) | portrecv _ = kind ()
fun join (Thread (_, id)) = done (CML.joinEvt id) | join _ = kind ()

(* Objects *)

fun new_chan () = Chan (number 0, CML.channel ())
fun new_swapchan () = Swapchan (number 1, CML.channel ())
fun new_ivar () = Ivar (number 2, SyncVar.iVar ())
fun new_mvar [] = Mvar (number 3, SyncVar.mVar ())
  | new_mvar values = Mvar (number 3, SyncVar.mVarInit (hd values))
fun new_mailbox () = Mailbox (number 4, Mailbox.mailbox ())

fun iput (Ivar (_, i), v) = (SyncVar.iPut (i, v); Unit) | iput _ = kind ()
fun mput (Mvar (_, m), v) = (SyncVar.mPut (m, v); Unit) | mput _ = kind ()
fun mail (Mailbox (_, b), v) = (Mailbox.send (b, v); Unit) | mail _ = kind ()

(* Multicast channels. The messages are a chain of I-variables. A port has a thread that goes along the chain, hands each message
   over, and then notes how far it is. A copy begins where the port is noted to be. *)

fun begin_port (out, noted) = let
      fun go (Chain link) = let
            val (message, rest) = SyncVar.iGet link
            in CML.send (out, message); ignore (SyncVar.mSwap (noted, rest)); go rest end
      in ignore (CML.spawn (fn () => go (SyncVar.mGet noted))) end

fun new_mchan () = let
      val (requests, answers) = (CML.channel (), CML.channel ())
      fun serve (Chain link) = case CML.recv requests of
            Message v => let val rest = Chain (SyncVar.iVar ()) in SyncVar.iPut (link, (v, rest)); serve rest end
          | NewPort (out, noted) => (SyncVar.mPut (noted, Chain link); begin_port (out, noted); CML.send (answers, ()); serve (Chain link))
      in ignore (CML.spawn (fn () => serve (Chain (SyncVar.iVar ())))); Mchan (number 5, (requests, answers)) end

fun new_port (Mchan (_, (requests, answers))) = let
      val port as (out, noted) = (CML.channel (), SyncVar.mVar ())
      in CML.send (requests, NewPort (out, noted)); CML.recv answers; Port (number 6, port) end
  | new_port _ = kind ()

fun copy (Port (_, (_, noted))) = let
      val port as (out, place) = (CML.channel (), SyncVar.mVarInit (SyncVar.mGet noted))
      in begin_port (out, place); Port (number 6, port) end
  | copy _ = kind ()

fun multicast (Mchan (_, (requests, _)), v) = (CML.send (requests, Message v); Unit) | multicast _ = kind ()

(* Runs. Each is told by one line of JSON. *)

fun quoted s = "\"" ^ String.translate json s ^ "\""
and json #"\n" = "\\n"
  | json c = if c = #"\"" orelse c = #"\\" then "\\" ^ String.str c else String.str c
fun listed words = "[" ^ String.concatWith "," (map quoted words) ^ "]"

fun run main = (
      lines := []; ends := []; threads := []; made := [0, 0, 0, 0, 0, 0, 0];
      ignore (RunCML.doit (#2 (begun (fn () => main [])), NONE));
      TextIO.print ("{\"lines\":" ^ listed (rev (!lines)) ^ ",\"threads\":" ^ listed (!ends) ^ "}\n"))

fun run_often (times, seed, main) =
      (TextIO.print "\n"; chance := Random.rand (seed, times); ignore (List.tabulate (times, fn _ => run main)))
