// The field of the holder that is written does not have the object any more, by whichever local of that holder: no
// other cell has it.

class F {
    void read() {}
    void close() {}
}

class Holder {
    F f;
}

final class Main {
    public static void main(String[] words) {
        Holder h = new Holder();
        Holder g = h;
        F a = new F();
        F[] box = new F[1];
        if (words.length > 1) {
            // So the array may have it, for whoever does not look at the order.
            box[0] = a;
            return;
        }
        h.f = a;
        h.f = null;
        box[0].close();
        a.read();
    }
}
