# Fields, an array and a loop: three points are made and kept in an array, and what is above them is added up.
.class LPoint;
.super Ljava/lang/Object;
.field static made:I
.field final x:I
.field final y:I
.method constructor <init>(II)V
    .registers 4
    invoke-direct {p0}, Ljava/lang/Object;-><init>()V
    iput p1, p0, LPoint;->x:I
    iput p2, p0, LPoint;->y:I
    sget v0, LPoint;->made:I
    add-int/lit8 v0, v0, 1
    sput v0, LPoint;->made:I
    return-void
.end method

.class LMain;
.super Ljava/lang/Object;
.method static main([Ljava/lang/String;)V
    .registers 6
    # the points (0, 0), (1, 2) and (2, 4)
    const/4 v0, 3
    new-array v1, v0, [LPoint;
    const/4 v2, 0
    :make
    if-ge v2, v0, :made
    new-instance v3, LPoint;
    add-int v4, v2, v2
    invoke-direct {v3, v2, v4}, LPoint;-><init>(II)V
    aput-object v3, v1, v2
    add-int/lit8 v2, v2, 1
    goto :make
    :made
    # their y, added up
    const/4 v0, 0
    const/4 v2, 0
    :next
    array-length v3, v1
    if-ge v2, v3, :done
    aget-object v3, v1, v2
    iget v4, v3, LPoint;->y:I
    add-int v0, v0, v4
    add-int/lit8 v2, v2, 1
    goto :next
    :done
    invoke-static {v0}, Ldvm/Console;->println(I)V
    sget v0, LPoint;->made:I
    invoke-static {v0}, Ldvm/Console;->println(I)V
    return-void
.end method
