// Where a path is dropped because the set has too many, another cell may hold the object: the receiver on the stack,
// which has the seventh path, is closed, and it is what is read.

class F {
    void read() {}
    void close() {}
}

final class Main {
    public static void main(String[] words) {
        F a = new F();
        F b = a;
        F c = a;
        F d = a;
        F e = a;
        F g = a;
        g.close();
        a.read();
    }
}
