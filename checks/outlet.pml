/* The three flags of an outlet (crates/session_io/src/outlet.rt), and the count of who is left to its worker (ThreadHost::leave_to_worker, ThreadHost::write_left of
   crates/serving/src/connections/thread_host.rt), over all interleavings: two threads that put something and write it, or leave it to the owner;
   the owner that hears the stream's events, and writes what was left to it; and the peer that reads. Checked by

     checks/outlet

   At the end, when no thread is under way, no event is left and the peer has read all, nothing waits: so no put is left unwritten
   while the stream takes octets, and no writable event is lost. */

#ifndef PUTS
#define PUTS 2    /* what each of the two threads puts */
#endif
#ifndef ROOM
#define ROOM 1    /* what the stream takes before it would block */
#endif
/* LEAVES: what is put may be left to the owner */

byte waiting;               /* what waits in the outbox, or in the wire */
byte sent;                  /* what the stream holds, and the peer has not read */
bool refused_write;         /* a write would block since the last event: the system sends one when there is room again */
bool writable;              /* the event that there is room */
bool locked;                /* the wire's lock */
bool is_wanted, is_busy, is_behind;
bool is_left;               /* the owner was told of puts since it was left to it to write them: the count isn't 0 */
byte listed;                /* how often the owner's list has it */
byte done;                  /* threads that have put all */

/* Outlet::pump: writes what waits, as far as the stream takes it, with the lock held. It may stop before that is all, and says so. */
inline pump(behind, more) {
  is_busy = true;
  /* not behind comes before anything is taken: who leaves it alone since it was behind has put before that, and is seen */
  is_behind = false;
  behind = false;
  more = false;
  do
  :: atomic { waiting > 0 && sent < ROOM -> waiting--; sent++ }
  :: atomic { waiting > 0 && sent >= ROOM -> refused_write = true; behind = true; break }
  :: waiting == 0 -> break
  :: waiting > 0 -> more = true; break
  od;
  /* behind comes before not busy: who finds it not busy sees whether it is behind */
  if
  :: behind -> is_behind = true; behind = false
  :: else
  fi;
  is_busy = false
}

/* Outlet::write */
inline write_wire(behind, more) {
  more = false;
  /* wanted comes before the lock is asked for: who has it looks again when it has given it back */
  is_wanted = true;
  do
  :: !is_wanted -> break
  :: else ->
    if
    :: atomic { locked -> more = false; break }
    :: atomic { !locked -> locked = true };
       is_wanted = false;
       pump(behind, more);
       locked = false
    fi
  od
}

/* Outlet::write_now */
inline write_now(behind, more) {
  if
  :: is_behind -> more = false
  :: else -> write_wire(behind, more)
  fi
}

/* View::leave_to_worker: whoever finds that the count was 0 lists it */
inline leave() {
  if
  :: atomic { !is_left -> is_left = true }; listed++
  :: is_left
  fi
}

/* View::go_on_in_turn: what is left after a turn of writing is left to the owner */
inline go_on_in_turn(more) {
  if
  :: atomic { more -> more = false }; leave()
  :: else
  fi
}

/* After each put, View::tell: writes, or leaves that to the owner */
active [2] proctype Putter() {
  byte puts = 0;
  bool behind, more;
  do
  :: puts == PUTS -> break
  :: else ->
    waiting++;
    if
    :: write_now(behind, more); go_on_in_turn(more)
#ifdef LEAVES
    :: leave()
#endif
    fi;
    puts++
  od;
  done++
}

/* Outlet::go_on, at each event; View::write_left, for what stands in its list */
active proctype Owner() {
  bool behind, more;
end:
  do
  :: atomic { listed > 0 -> listed-- };
     /* the count is taken back before what waits is looked at: who found more than 0 there has put before that */
     is_left = false;
     write_now(behind, more);
     go_on_in_turn(more)
  :: atomic { writable -> writable = false };
     /* busy is looked at before behind: who writes says first that it is behind, and then that it is done */
     if
     :: is_busy -> write_wire(behind, more)
     :: else ->
        if
        :: is_behind -> write_wire(behind, more)
        :: else -> more = false
        fi
     fi;
     go_on_in_turn(more)
  od
}

/* Reads; the system sends an event where a write was refused. */
active proctype Peer() {
end:
  do
  :: atomic { sent > 0 -> sent--; if :: refused_write -> refused_write = false; writable = true :: else fi }
  od
}

/* Once all has come to rest, nothing waits. */
active proctype Rest() {
  atomic { timeout -> assert(done < 2 || waiting == 0); assert(done == 2) }
}
