// What the callee's slots lead to through fields is lost where it returns: the holder has the object, and it is closed
// there.

class F {
    void read() {}
    void close() {}
}

class Holder {
    F f;
}

final class Main {
    static void put(Holder h, F f) {
        h.f = f;
    }

    public static void main(String[] words) {
        Holder h = new Holder();
        F a = new F();
        put(h, a);
        h.f.close();
        a.read();
    }
}
