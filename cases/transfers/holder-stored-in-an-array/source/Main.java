// A store of a holder into an array tells nothing of what its field has: that cell is still the last one of a path.

class F {
    void read() {}
    void close() {}
}

class Holder {
    F f;
}

final class Main {
    public static void main(String[] words) {
        Holder h = new Holder();
        Holder[] holders = new Holder[1];
        F a = new F();
        F[] box = new F[1];
        if (words.length > 1) {
            // So the array may have it, for whoever does not look at the order.
            box[0] = a;
            return;
        }
        h.f = a;
        holders[0] = h;
        box[0].close();
        a.read();
    }
}
