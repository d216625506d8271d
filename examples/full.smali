# A full heap and a full stack: an array that no heap has room for, and a method that calls itself without end. Both errors are caught, and main goes on.
.class LMain;
.super Ljava/lang/Object;
.field static depth:I
.method static deeper()V
    .registers 1
    sget v0, LMain;->depth:I
    add-int/lit8 v0, v0, 1
    sput v0, LMain;->depth:I
    invoke-static {}, LMain;->deeper()V
    return-void
.end method
.method static main([Ljava/lang/String;)V
    .registers 4
    sget-object v0, Ljava/lang/System;->out:Ljava/io/PrintStream;
    const v1, 2000000000
    :array
    new-array v1, v1, [I
    :made
    return-void
    :no_room
    move-exception v1
    const-string v1, "no room for the array"
    invoke-virtual {v0, v1}, Ljava/io/PrintStream;->println(Ljava/lang/String;)V
    :call
    invoke-static {}, LMain;->deeper()V
    :called
    return-void
    :too_deep
    move-exception v1
    const-string v1, "no room for another call behind"
    invoke-virtual {v0, v1}, Ljava/io/PrintStream;->println(Ljava/lang/String;)V
    sget v1, LMain;->depth:I
    invoke-virtual {v0, v1}, Ljava/io/PrintStream;->println(I)V
    const-string v1, "main goes on"
    invoke-virtual {v0, v1}, Ljava/io/PrintStream;->println(Ljava/lang/String;)V
    return-void
    .catch Ljava/lang/OutOfMemoryError; {:array .. :made} :no_room
    .catch Ljava/lang/StackOverflowError; {:call .. :called} :too_deep
.end method
