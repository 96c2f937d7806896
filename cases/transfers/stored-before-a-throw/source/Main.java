// What the callee's slots lead to through fields is lost also where it throws: the holder has the object, and it is
// closed there.

class F {
    void read() {}
    void close() {}
}

class Holder {
    F f;
}

final class Main {
    static void put(Holder h, F f) {
        h.f = f;
        throw new RuntimeException();
    }

    public static void main(String[] words) {
        Holder h = new Holder();
        F a = new F();
        try {
            put(h, a);
        } catch (RuntimeException e) {
            h.f.close();
            a.read();
        }
    }
}
