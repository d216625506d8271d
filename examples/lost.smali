# An increment that is lost, on a schedule that is told: each line of it has a worker, a thread and a number of steps. Main makes and starts
# both threads. The first one reads the field; the second one reads it, adds one, writes it and returns; then the first one writes what it
# read and one. Main joins both and prints 1, each time that `replay` runs this schedule.
.class LAdder;
.super Ljava/lang/Thread;
.method constructor <init>()V
    .registers 1
    invoke-direct {p0}, Ljava/lang/Thread;-><init>()V
    return-void
.end method
.method public run()V
    .registers 2
    sget v0, LMain;->count:I
    add-int/lit8 v0, v0, 1
    sput v0, LMain;->count:I
    return-void
.end method

.class LMain;
.super Ljava/lang/Object;
.field static count:I
.method static main([Ljava/lang/String;)V
    .registers 3
    new-instance v0, LAdder;
    invoke-direct {v0}, LAdder;-><init>()V
    new-instance v1, LAdder;
    invoke-direct {v1}, LAdder;-><init>()V
    invoke-virtual {v0}, LAdder;->start()V
    invoke-virtual {v1}, LAdder;->start()V
    invoke-virtual {v0}, LAdder;->join()V
    invoke-virtual {v1}, LAdder;->join()V
    sget v2, LMain;->count:I
    invoke-static {v2}, Ldvm/Console;->println(I)V
    return-void
.end method
.schedule
0 0 16
0 1 1
0 2 4
0 1 3
0 0 5
.end schedule
