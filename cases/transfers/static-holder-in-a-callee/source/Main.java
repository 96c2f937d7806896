// A path through a static field is not lost where a method is entered: what the array may hold is another object.

class F {
    void read() {}
    void close() {}
}

class Holder {
    F f;
}

final class Main {
    static Holder kept;

    static void use(Holder h, F[] box, F f, Holder none) {
        box[0].close();
        f.read();
    }

    public static void main(String[] words) {
        Holder h = new Holder();
        F a = new F();
        F[] box = new F[1];
        if (words.length > 1) {
            // So the array may have it, for whoever does not look at the order.
            box[0] = a;
            return;
        }
        h.f = a;
        kept = h;
        use(h, box, a, h = null);
    }
}
