# Refused by a static rule: no object is made of an interface (S16).
.class LMain;
.super Ljava/lang/Object;
.method static main()V
.registers 1
nop
new-instance v0, Ljava/lang/Runnable;
return-void
.end method
