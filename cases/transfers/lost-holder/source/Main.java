// When the last local of a holder goes, the path through its field is lost: the object is closed by the holder that the
// array has.

class F {
    void read() {}
    void close() {}
}

class Holder {
    F f;
}

final class Main {
    public static void main(String[] words) {
        Holder h = new Holder();
        Holder[] holders = {h};
        F a = new F();
        h.f = a;
        h = null;
        holders[0].f.close();
        a.read();
    }
}
