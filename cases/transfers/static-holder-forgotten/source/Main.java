// A path through a static field that is written is lost, though a local has the same holder.

class F {
    void read() {}
    void close() {}
}

class Holder {
    F f;
}

final class Main {
    static Holder kept;

    public static void main(String[] words) {
        Holder h = new Holder();
        F a = new F();
        F[] box = new F[1];
        if (words.length > 1) {
            // So the array may have it, for whoever does not look at the order.
            box[0] = a;
            return;
        }
        h.f = a;
        kept = h;
        kept = null;
        box[0].close();
        a.read();
    }
}
