// A load of a field that stands in a path, but not at its end, tells nothing of other cells.

class F {
    void read() {}
    void close() {}
}

class Holder {
    F f;
}

class Outer {
    Holder inner;
}

final class Main {
    public static void main(String[] words) {
        Holder h = new Holder();
        Outer o = new Outer();
        Outer p = new Outer();
        F a = new F();
        F[] box = new F[1];
        if (words.length > 1) {
            // So the array may have it, for whoever does not look at the order.
            box[0] = a;
            return;
        }
        h.f = a;
        o.inner = h;
        Holder g = p.inner;
        box[0].close();
        a.read();
    }
}
