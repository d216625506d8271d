# An exception is caught: ten is divided by each number of an array, and a division by zero is told and passed over.
.class LMain;
.super Ljava/lang/Object;
.method static main([Ljava/lang/String;)V
    .registers 6
    const/4 v0, 5
    const/4 v1, 0
    const/4 v2, 2
    filled-new-array {v0, v1, v2}, [I
    move-result-object v0
    const/4 v1, 0
    sget-object v4, Ljava/lang/System;->out:Ljava/io/PrintStream;
    :next
    array-length v2, v0
    if-ge v1, v2, :done
    aget v3, v0, v1
    const/16 v2, 10
    :try
    div-int v2, v2, v3
    :tried
    invoke-virtual {v4, v2}, Ljava/io/PrintStream;->println(I)V
    :passed
    add-int/lit8 v1, v1, 1
    goto :next
    :done
    return-void
    :zero
    move-exception v2
    const-string v2, "no division by zero"
    invoke-virtual {v4, v2}, Ljava/io/PrintStream;->println(Ljava/lang/String;)V
    goto :passed
    .catch Ljava/lang/ArithmeticException; {:try .. :tried} :zero
.end method
