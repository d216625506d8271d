# An exception that nobody catches: the thread dies of it, and the program's status is 1.
.class LAccount;
.super Ljava/lang/Object;
.field private balance:I
.method constructor <init>(I)V
    .registers 2
    invoke-direct {p0}, Ljava/lang/Object;-><init>()V
    iput p1, p0, LAccount;->balance:I
    return-void
.end method
.method take(I)V
    .registers 4
    iget v0, p0, LAccount;->balance:I
    if-gt p1, v0, :refused
    sub-int v0, v0, p1
    iput v0, p0, LAccount;->balance:I
    return-void
    :refused
    new-instance v0, Ljava/lang/IllegalArgumentException;
    const-string v1, "the balance is too low"
    invoke-direct {v0, v1}, Ljava/lang/IllegalArgumentException;-><init>(Ljava/lang/String;)V
    throw v0
.end method

.class LMain;
.super Ljava/lang/Object;
.method static main([Ljava/lang/String;)V
    .registers 3
    new-instance v0, LAccount;
    const/16 v1, 100
    invoke-direct {v0, v1}, LAccount;-><init>(I)V
    const/16 v1, 70
    invoke-virtual {v0, v1}, LAccount;->take(I)V
    invoke-static {v1}, Ldvm/Console;->println(I)V
    invoke-virtual {v0, v1}, LAccount;->take(I)V
    invoke-static {v1}, Ldvm/Console;->println(I)V
    return-void
.end method
