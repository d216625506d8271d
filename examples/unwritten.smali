# Refused by the typing rules: v0 is printed and was never written, so it holds no int (V2).
.class LMain;
.super Ljava/lang/Object;
.method static main()V
.registers 1
invoke-static {v0}, Ldvm/Console;->println(I)V
return-void
.end method
