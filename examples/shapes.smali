# Accepted: an interface, an abstract class under it, two classes below that, and a main method that calls them.
.class interface abstract LShape;
.super Ljava/lang/Object;
.method abstract area()I
.end method

.class abstract LNamed;
.super Ljava/lang/Object;
.implements LShape;
.field final name:Ljava/lang/String;
.method constructor <init>(Ljava/lang/String;)V
.locals 0
invoke-direct {p0}, Ljava/lang/Object;-><init>()V
iput-object p1, p0, LNamed;->name:Ljava/lang/String;
return-void
.end method

.class LSquare;
.super LNamed;
.field final side:I
.method constructor <init>(I)V
.locals 1
const-string v0, "square"
invoke-direct {p0, v0}, LNamed;-><init>(Ljava/lang/String;)V
iput p1, p0, LSquare;->side:I
return-void
.end method
.method area()I
.locals 1
iget v0, p0, LSquare;->side:I
mul-int v0, v0, v0
return v0
.end method

.class LUnit;
.super LSquare;
.method constructor <init>()V
.locals 1
const/4 v0, 0x1
invoke-direct {p0, v0}, LSquare;-><init>(I)V
return-void
.end method

.class LMain;
.super Ljava/lang/Object;
.method static total([LShape;)I
.locals 4
const/4 v0, 0x0
const/4 v1, 0x0
array-length v2, p0
:next
if-ge v1, v2, :done
aget-object v3, p0, v1
invoke-interface {v3}, LShape;->area()I
move-result v3
add-int v0, v0, v3
add-int/lit8 v1, v1, 0x1
goto :next
:done
return v0
.end method
.method static main()V
.registers 4
const/4 v0, 0x2
new-array v0, v0, [LShape;
new-instance v1, LSquare;
const/4 v2, 0x3
invoke-direct {v1, v2}, LSquare;-><init>(I)V
const/4 v3, 0x0
aput-object v1, v0, v3
new-instance v1, LUnit;
invoke-direct {v1}, LUnit;-><init>()V
const/4 v3, 0x1
aput-object v1, v0, v3
invoke-static {v0}, LMain;->total([LShape;)I
move-result v0
invoke-static {v0}, Ldvm/Console;->println(I)V
return-void
.end method
