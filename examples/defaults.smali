# Default methods: interfaces with code. A greeter has a name; how it greets it may leave to the interface.
.class public interface abstract LGreeter;
.super Ljava/lang/Object;
# Runs before the first class that implements Greeter is initialised, since Greeter has a default method.
.method static constructor <clinit>()V
    .locals 1
    const-string v0, "greeters are ready"
    invoke-static {v0}, LMain;->say(Ljava/lang/String;)V
    return-void
.end method
.method public abstract name()Ljava/lang/String;
.end method
.method public greet()V
    .locals 1
    const-string v0, "Hello, "
    invoke-direct {p0, v0}, LGreeter;->greetWith(Ljava/lang/String;)V
    return-void
.end method
.method private greetWith(Ljava/lang/String;)V
    .locals 1
    invoke-interface {p0}, LGreeter;->name()Ljava/lang/String;
    move-result-object v0
    invoke-virtual {p1, v0}, Ljava/lang/String;->concat(Ljava/lang/String;)Ljava/lang/String;
    move-result-object v0
    invoke-static {v0}, LMain;->say(Ljava/lang/String;)V
    return-void
.end method

# An interface under it, whose default method goes before Greeter's.
.class public interface abstract LShy;
.super Ljava/lang/Object;
.implements LGreeter;
.method public greet()V
    .locals 1
    const-string v0, "..."
    invoke-static {v0}, LMain;->say(Ljava/lang/String;)V
    return-void
.end method

# An interface that knows nothing of these two, with a default method of the same name and prototype.
.class public interface abstract LDoor;
.super Ljava/lang/Object;
.method public greet()V
    .locals 1
    const-string v0, "squeak"
    invoke-static {v0}, LMain;->say(Ljava/lang/String;)V
    return-void
.end method

.class public LAda;
.super Ljava/lang/Object;
.implements LGreeter;
.method constructor <init>()V
    .locals 0
    invoke-direct {p0}, Ljava/lang/Object;-><init>()V
    return-void
.end method
.method public name()Ljava/lang/String;
    .locals 1
    const-string v0, "Ada"
    return-object v0
.end method

.class public LShyAda;
.super LAda;
.implements LShy;
.method constructor <init>()V
    .locals 0
    invoke-direct {p0}, LAda;-><init>()V
    return-void
.end method

# Neither Greeter's method nor Door's goes before the other's.
.class public LDoorAda;
.super LAda;
.implements LDoor;
.method constructor <init>()V
    .locals 0
    invoke-direct {p0}, LAda;-><init>()V
    return-void
.end method

.class public LMain;
.super Ljava/lang/Object;
.method static say(Ljava/lang/String;)V
    .locals 1
    sget-object v0, Ljava/lang/System;->out:Ljava/io/PrintStream;
    invoke-virtual {v0, p0}, Ljava/io/PrintStream;->println(Ljava/lang/String;)V
    return-void
.end method
.method public static main()V
    .locals 1
    new-instance v0, LAda;
    invoke-direct {v0}, LAda;-><init>()V
    invoke-interface {v0}, LGreeter;->greet()V
    invoke-virtual {v0}, LAda;->greet()V
    new-instance v0, LShyAda;
    invoke-direct {v0}, LShyAda;-><init>()V
    invoke-interface {v0}, LGreeter;->greet()V
    new-instance v0, LDoorAda;
    invoke-direct {v0}, LDoorAda;-><init>()V
    :call
    invoke-interface {v0}, LGreeter;->greet()V
    :called
    return-void
    :clash
    const-string v0, "two default methods clash"
    invoke-static {v0}, LMain;->say(Ljava/lang/String;)V
    return-void
    .catch Ljava/lang/IncompatibleClassChangeError; {:call .. :called} :clash
.end method
