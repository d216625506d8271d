# Refused by typing: a plug-in makes an int of its own and passes it to its host as the host's object, so as to read what it has no
# reference to. The verifier refuses it before anything runs.
.class LHost;
.super Ljava/lang/Object;
.field secret:I
.method constructor <init>()V
    .registers 1
    invoke-direct {p0}, Ljava/lang/Object;-><init>()V
    return-void
.end method
.method static show(LHost;)V
    .registers 2
    iget v0, p0, LHost;->secret:I
    invoke-static {v0}, Ldvm/Console;->println(I)V
    return-void
.end method

.class LMain;
.super Ljava/lang/Object;
.method static main()V
    .registers 1
    const/16 v0, 4096
    invoke-static {v0}, LHost;->show(LHost;)V
    return-void
.end method
