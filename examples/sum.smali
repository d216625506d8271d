# Two and three are added, and the sum is printed.
.class LMain;
.super Ljava/lang/Object;
.method static main()V
.registers 2
const/4 v0, 0x2
const/4 v1, 0x3
add-int v0, v0, v1
invoke-static {v0}, Ldvm/Console;->println(I)V
return-void
.end method
