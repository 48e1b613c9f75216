"""The refusal numbers in words. README, include/blyskota.h and the Rust wrapper have the same; tests/ compare them."""

MEANINGS = {
    1: "the input ends before or inside a record that is needed",
    2: "a record begins with another mark than the one due here",
    3: "the version is not 1",
    4: "the number of threads is not 1 to 4",
    5: "a thread has more than 16 instructions",
    6: "a byte of an instruction is out of range, or is not 0 though it is not used",
    7: "a 17th store",
    8: "the number of conditions is above 8, or a byte of a condition is out of range",
    9: "bytes follow the last condition",
    10: "the thread's number is not the next one",
    20: "the program value or the machine value is not well formed",
    21: "there is no such thread",
    22: "the kind of the step is above 1, or b is not 0 in an execution",
    23: "the promised location is above 15",
    24: "16 messages stand in memory already",
    25: "the thread is at its end",
    26: "a load finds no message to its location at that time, a store has not promised its message at that time, "
        "any other instruction executes at time 0 only",
    27: "a load would pass over a newer message to its location that the thread must see",
    28: "a view that the store has to come after is not below its time",
    29: "alone, the thread could not keep its promises after the step",
    30: "the lent trace area is shorter than 480 bytes",
    40: "there are more outcomes than the lent table has entries",
}
