package p;

class A {
    int f(int x) { return x + 1; }
}
