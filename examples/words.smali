# Strings: a text is turned round by a StringBuilder, and told with its length and whether it is the text that it was.
.class LMain;
.super Ljava/lang/Object;
.method static main([Ljava/lang/String;)V
    .registers 7
    const-string v0, "Dalv\u00edk"
    new-instance v1, Ljava/lang/StringBuilder;
    invoke-direct {v1}, Ljava/lang/StringBuilder;-><init>()V
    invoke-virtual {v0}, Ljava/lang/String;->length()I
    move-result v2
    :next
    if-eqz v2, :done
    add-int/lit8 v2, v2, -1
    invoke-virtual {v0, v2}, Ljava/lang/String;->charAt(I)C
    move-result v3
    invoke-virtual {v1, v3}, Ljava/lang/StringBuilder;->append(C)Ljava/lang/StringBuilder;
    goto :next
    :done
    invoke-virtual {v1}, Ljava/lang/StringBuilder;->toString()Ljava/lang/String;
    move-result-object v1
    sget-object v4, Ljava/lang/System;->out:Ljava/io/PrintStream;
    invoke-virtual {v4, v1}, Ljava/io/PrintStream;->println(Ljava/lang/String;)V
    invoke-virtual {v1}, Ljava/lang/String;->length()I
    move-result v2
    invoke-virtual {v4, v2}, Ljava/io/PrintStream;->println(I)V
    invoke-virtual {v1, v0}, Ljava/lang/String;->equals(Ljava/lang/Object;)Z
    move-result v2
    invoke-virtual {v4, v2}, Ljava/io/PrintStream;->println(Z)V
    return-void
.end method
