# A data race: two threads add one to a field, and neither enters a monitor. Where one reads the field between the other's reading and
# writing, an increment is lost. The seed picks the schedule: one shows 2, the other 1, and each seed shows the same again.
.class LAdder;
.super Ljava/lang/Thread;
.method constructor <init>()V
    .registers 1
    invoke-direct {p0}, Ljava/lang/Thread;-><init>()V
    return-void
.end method
.method public run()V
    .registers 2
    sget v0, LMain;->count:I
    add-int/lit8 v0, v0, 1
    sput v0, LMain;->count:I
    return-void
.end method

.class LMain;
.super Ljava/lang/Object;
.field static count:I
.method static main([Ljava/lang/String;)V
    .registers 3
    new-instance v0, LAdder;
    invoke-direct {v0}, LAdder;-><init>()V
    new-instance v1, LAdder;
    invoke-direct {v1}, LAdder;-><init>()V
    invoke-virtual {v0}, LAdder;->start()V
    invoke-virtual {v1}, LAdder;->start()V
    invoke-virtual {v0}, LAdder;->join()V
    invoke-virtual {v1}, LAdder;->join()V
    sget v2, LMain;->count:I
    invoke-static {v2}, Ldvm/Console;->println(I)V
    return-void
.end method
