// A store puts into the field also that a value is not the object: the newer one is closed by another name of the
// holder.

class F {
    void read() {}
    void close() {}
    void free() {}
}

class Holder {
    F f;
}

final class Main {
    static F make() {
        return new F();
    }

    public static void main(String[] words) {
        Holder h = new Holder();
        Holder g = h;
        F a = make();
        F[] box = {a};
        F b = make();
        b.free();
        h.f = b;
        g.f.close();
        a.read();
    }
}
