# A deadlock: two threads enter the same two monitors in different orders. Main waits until the other thread has the second monitor,
# and then wants it; that thread wants the first one, which main has.
.class LOther;
.super Ljava/lang/Thread;
.method constructor <init>()V
    .registers 1
    invoke-direct {p0}, Ljava/lang/Thread;-><init>()V
    return-void
.end method
.method public run()V
    .registers 3
    sget-object v0, LMain;->second:Ljava/lang/Object;
    monitor-enter v0
    monitor-enter p0
    invoke-virtual {p0}, LOther;->notify()V
    monitor-exit p0
    sget-object v1, LMain;->first:Ljava/lang/Object;
    monitor-enter v1
    monitor-exit v1
    monitor-exit v0
    return-void
.end method

.class LMain;
.super Ljava/lang/Object;
.field static first:Ljava/lang/Object;
.field static second:Ljava/lang/Object;
.method static main([Ljava/lang/String;)V
    .registers 4
    new-instance v0, Ljava/lang/Object;
    invoke-direct {v0}, Ljava/lang/Object;-><init>()V
    sput-object v0, LMain;->first:Ljava/lang/Object;
    new-instance v1, Ljava/lang/Object;
    invoke-direct {v1}, Ljava/lang/Object;-><init>()V
    sput-object v1, LMain;->second:Ljava/lang/Object;
    new-instance v2, LOther;
    invoke-direct {v2}, LOther;-><init>()V
    monitor-enter v0
    monitor-enter v2
    invoke-virtual {v2}, LOther;->start()V
    invoke-virtual {v2}, LOther;->wait()V
    monitor-exit v2
    monitor-enter v1
    monitor-exit v1
    monitor-exit v0
    return-void
.end method
