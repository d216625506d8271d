# Refused when it is read: const/4 takes a number from -8 to 7.
.class LMain;
.super Ljava/lang/Object;
.method static main()V
.registers 1
const/4 v0, 0x8
return-void
.end method
