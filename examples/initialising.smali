# A class is initialised once, by the first thread that uses it; the other one waits until that is done.
.class LConfig;
.super Ljava/lang/Object;
.field static size:I
.method static constructor <clinit>()V
    .registers 2
    sget-object v0, Ljava/lang/System;->out:Ljava/io/PrintStream;
    const-string v1, "initialised"
    invoke-virtual {v0, v1}, Ljava/io/PrintStream;->println(Ljava/lang/String;)V
    const/16 v0, 64
    sput v0, LConfig;->size:I
    return-void
.end method

.class LUser;
.super Ljava/lang/Thread;
.field size:I
.method constructor <init>()V
    .registers 1
    invoke-direct {p0}, Ljava/lang/Thread;-><init>()V
    return-void
.end method
.method public run()V
    .registers 2
    sget v0, LConfig;->size:I
    iput v0, p0, LUser;->size:I
    return-void
.end method

.class LMain;
.super Ljava/lang/Object;
.method static main([Ljava/lang/String;)V
    .registers 4
    new-instance v0, LUser;
    invoke-direct {v0}, LUser;-><init>()V
    new-instance v1, LUser;
    invoke-direct {v1}, LUser;-><init>()V
    invoke-virtual {v0}, LUser;->start()V
    invoke-virtual {v1}, LUser;->start()V
    invoke-virtual {v0}, LUser;->join()V
    invoke-virtual {v1}, LUser;->join()V
    iget v2, v0, LUser;->size:I
    iget v3, v1, LUser;->size:I
    add-int v2, v2, v3
    invoke-static {v2}, Ldvm/Console;->println(I)V
    return-void
.end method
