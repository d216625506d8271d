# Refused when it is linked: each of the two classes is the other's superclass.
.class LEgg;
.super LHen;
.class LHen;
.super LEgg;
