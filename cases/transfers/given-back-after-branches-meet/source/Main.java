// A result that a stub says is an argument has what the argument had: the path through the field of a holder that no
// local is known to have is not lost.

class F {
    void read() {}
    void close() {}
}

class Holder {
    F f;
}

final class Main {
    public static void main(String[] words) {
        Holder h = new Holder();
        F a = new F();
        F[] box = new F[1];
        if (words.length > 1) {
            // So the array may have it, for whoever does not look at the order.
            box[0] = a;
            return;
        }
        h.f = a;
        Holder g = Lib.same(words.length > 0 ? h : h);
        box[0].close();
        a.read();
    }
}
