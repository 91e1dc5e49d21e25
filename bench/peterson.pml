/* examples/peterson for Spin: two sides each take Peterson's lock once and add 1 to a count, without a fence. A store waits in the
 * buffer of its side, and enters memory when `drain` takes it from there; a load sees the youngest waiting store of its own side. What
 * the model leaves out is what rseq_run has beside: the instructions, the calls that start, join and print, and harts that threads leave. */
#define TURN 2
#define COUNT 3
#define WORDS 4
#define MOST 5

typedef Store { byte word; byte value };
typedef Buffer { Store waiting[MOST]; byte length };

byte memory[WORDS];
Buffer buffers[2];
byte ended;

inline store(side, at, what) {
    d_step {
        buffers[side].waiting[buffers[side].length].word = at;
        buffers[side].waiting[buffers[side].length].value = what;
        buffers[side].length++;
    }
}

inline load(side, at, into) {
    d_step {
        into = memory[at];
        index = 0;
        do
        :: index < buffers[side].length ->
            if
            :: buffers[side].waiting[index].word == at -> into = buffers[side].waiting[index].value
            :: else
            fi;
            index++
        :: else -> break
        od;
        index = 0
    }
}

proctype drain(byte side) {
    byte index;
end:
    do
    :: d_step {
        buffers[side].length > 0 ->
        memory[buffers[side].waiting[0].word] = buffers[side].waiting[0].value;
        index = 1;
        do
        :: index < buffers[side].length ->
            buffers[side].waiting[index - 1].word = buffers[side].waiting[index].word;
            buffers[side].waiting[index - 1].value = buffers[side].waiting[index].value;
            index++
        :: else -> break
        od;
        buffers[side].length--;
        buffers[side].waiting[buffers[side].length].word = 0;
        buffers[side].waiting[buffers[side].length].value = 0;
        index = 0
    }
    od
}

proctype take_and_add(byte me) {
    byte seen, index;
    store(me, me, 1);
    store(me, TURN, 1 - me);
    do
    :: load(me, 1 - me, seen);
        if
        :: seen == 0 -> break
        :: else
        fi;
        load(me, TURN, seen);
        if
        :: seen == me -> break
        :: else
        fi
    od;
    load(me, COUNT, seen);
    store(me, COUNT, seen + 1);
    store(me, me, 0);
    buffers[me].length == 0;
    ended++
}

init {
    atomic { run drain(0); run drain(1); run take_and_add(0); run take_and_add(1) };
    ended == 2;
    assert(memory[COUNT] == 2)
}
