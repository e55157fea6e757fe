/* The steps of the lock in src/steps.rt, src/waiting.rt and src/lock.rt, as a model for the tool spin, which looks at
   every order in which they can come. No clause of the crate says that `enter` returns. Here, for so many passes and
   turns, spin tells each state from which nothing goes on though a pass hasn't had all its turns.

   What the model leaves out makes none of these states fewer. A sleep ends by a wake-up alone; a real one may also end
   by itself, which is to look once more. How often a pass looks before it sleeps isn't said: it may stop at any moment.
   Of a bell's number only this counts: whether it is marked, and whether it is still the one that was read. (So it
   doesn't wrap; in the program a wake-up would be lost where a bell rang 2^31 times between the mark and the sleep.)
   The passes take so many turns in all, however these are dealt: three each is one way of many. A pass between two turns
   is like any other, so of these only the first draws a ticket.

   Each of the words below leaves a mistake in, and spin must find a state of each in which a pass sleeps for ever:
   LOOK_BEFORE_MARK   the turns are looked at before the bell is marked, and not after
   SLEEP_UNMARKED     whoever was woken ahead and looked in vain sleeps again, and doesn't mark the bell anew
   NO_RING            whoever ends a turn wakes nobody
   AHEAD_ALONE        the ticket after the next is woken, and the next isn't, since it was woken ahead
   RING_BEFORE_END    the bells ring before the turn ends
   PEEK_BEFORE_END    whether a bell is marked is asked before the turn ends
   WAKE_WITHOUT_RING  sleepers are woken, and the bell keeps its number */

#ifndef PASSES
#define PASSES 4
#endif
/* Three for each pass. */
#ifndef TURNS
#define TURNS 12
#endif
/* Fewer bells than passes, so that two that wait may share one, as more than 16 do in the program. */
#ifndef BELLS
#define BELLS 3
#endif
/* How many tickets were drawn, and how many turns have ended. */
byte tickets, turns;

/* Which bells are marked. */
bool marked[BELLS];

/* Of each pass: the bell whose number it has read, or BELLS where it has read none that still matters; whether that
   has rung since; and whether the pass sleeps. */
byte bell[PASSES];
bool rang[PASSES];
bool asleep[PASSES];

/* A bit for each pass that isn't between two turns. */
byte busy;

/* Draws the next ticket. */
inline draw() {
	d_step {
		tickets < TURNS && (busy & (1 << me)) == 0 && (busy & ((1 << me) - 1)) == (1 << me) - 1;
		busy = busy | (1 << me);
		ticket = tickets;
		tickets++
	}
}

/* Marks the bell of its ticket, and has its number. */
inline mark() {
	d_step {
		bell[me] = ticket % BELLS;
		rang[me] = false;
		marked[ticket % BELLS] = true
	}
}

/* The turn has come: no bell is waited for any more. */
inline stop_waiting() {
	bell[me] = BELLS;
	rang[me] = false
}

/* Sleeps on the bell, unless it has rung since it was marked. The test and the falling asleep are one step, as they
   are for the system's own call. */
inline park() {
	d_step {
		asleep[me] = !rang[me];
		bell[me] = (asleep[me] -> bell[me] : BELLS);
		rang[me] = false
	}
	!asleep[me]
}

#ifdef SLEEP_UNMARKED
#define MARK_ANEW \
		if \
		:: woken -> d_step { bell[me] = ticket % BELLS; rang[me] = false } \
		:: !woken -> mark() \
		fi;
#else
#define MARK_ANEW mark();
#endif

/* Waits until the turn of the ticket has come: looks at the turns, or marks the bell, looks once more, and sleeps. */
inline wait_for() {
	do
	:: d_step {
			turns == ticket -> stop_waiting()
		}
		break
#ifdef LOOK_BEFORE_MARK
	:: turns != ticket ->
		mark();
		park()
#else
	:: MARK_ANEW
		if
		:: d_step {
				turns == ticket -> stop_waiting()
			}
			break
		:: turns != ticket -> park()
		fi;
#ifdef SLEEP_UNMARKED
		woken = true
#endif
#endif
	od
#ifdef SLEEP_UNMARKED
	;
	woken = false
#endif
}

/* Whether the bell of that ticket is marked, and its number. */
inline peek(number) {
	found = marked[(number) % BELLS];
	bell[me] = (found -> (number) % BELLS : BELLS);
	rang[me] = false
}

/* The bell whose number was read gets the next one, which has no mark, unless it has done so already. */
inline ring() {
	found = !rang[me];
	next = (found -> bell[me] : 0);
	bell[me] = BELLS;
	rang[me] = false;
#ifndef WAKE_WITHOUT_RING
	if
	:: found ->
		marked[next] = false;
		do
		:: other < PASSES -> rang[other] = (rang[other] || bell[other] == next) && !asleep[other]; other++
		:: else -> break
		od;
		other = 0
	:: else
	fi
#endif
}

/* Those who sleep on that bell wake. */
inline wake() {
	do
	:: other < PASSES ->
		if
		:: asleep[other] && bell[other] == next ->
			asleep[other] = false;
			bell[other] = BELLS
		:: else
		fi
		other++
	:: else -> break
	od;
	found = false;
	next = 0;
	other = 0
}

/* Ends the turn, which must be that of the pass's own ticket, and nobody else's. */
inline end_turn() {
	d_step {
		assert(turns == ticket);
		turns++
	}
}

/* Rings the bell of that ticket, if it is marked. */
inline call(number) {
	d_step {
		peek(number)
	}
	if
	:: d_step { found -> ring() }
		if
		:: d_step { found -> wake() }
		:: !found
		fi
	:: !found
	fi
}

/* The pass is between two turns. */
inline rest() {
	ticket = 0;
	busy = busy & ~(1 << me)
}

/* Ends the turn, and then rings for the next ticket and for the one behind it. */
inline leave() {
#ifdef RING_BEFORE_END
	call(ticket + 1);
	call(ticket + 2);
	end_turn();
#else
#ifdef PEEK_BEFORE_END
	d_step {
		peek(ticket + 1)
	}
	end_turn();
	if
	:: d_step { found -> ring() }
		if
		:: d_step { found -> wake() }
		:: !found
		fi
	:: !found
	fi;
	call(ticket + 2);
#else
	end_turn();
#ifndef NO_RING
#ifndef AHEAD_ALONE
	call(ticket + 1);
#endif
	call(ticket + 2);
#endif
#endif
#endif
	d_step {
		rest()
	}
}

proctype pass(byte me) {
	byte ticket, next, other;
	bool found;
#ifdef SLEEP_UNMARKED
	bool woken;
#endif
end:	do
	:: draw(); wait_for(); leave()
	od
}

init {
	byte number;
	atomic {
		do
		:: number < PASSES -> bell[number] = BELLS; run pass(number); number++
		:: else -> break
		od
	}
}
