// A slot that the node writes is no double of what it held before: the local of the holder gets another one, which has
// the same path, and the path of the first holder is lost.

class F {
    void read() {}
    void close() {}
}

class Holder {
    F f;
}

final class Main {
    public static void main(String[] words) {
        Holder h = new Holder();
        F a = new F();
        F[] box = new F[1];
        if (words.length > 1) {
            // So the array may have it, for whoever does not look at the order.
            box[0] = a;
            return;
        }
        h.f = a;
        Holder g = words.length > 0 ? h : h;
        h = g;
        box[0].close();
        a.read();
    }
}
