// A static field is no double of a local: when the local of the holder goes, the path through its field is lost, though
// the static field has the same.

class F {
    void read() {}
    void close() {}
}

class Holder {
    F f;
}

final class Main {
    static Holder kept;

    public static void main(String[] words) {
        Holder h = new Holder();
        F a = new F();
        F[] box = new F[1];
        if (words.length > 1) {
            // So the array may have it, for whoever does not look at the order.
            box[0] = a;
            return;
        }
        h.f = a;
        kept = h;
        h = null;
        box[0].close();
        a.read();
    }
}
