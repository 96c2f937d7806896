// Where a store takes away the path of another holder, a cell may hold the object that no path has: that holder's field
// still has it, and it is closed there.

class F {
    void read() {}
    void close() {}
}

class Holder {
    F f;
}

final class Main {
    public static void main(String[] words) {
        Holder h = new Holder();
        Holder g = new Holder();
        F a = new F();
        h.f = a;
        g.f = null;
        h.f.close();
        a.read();
    }
}
