// The slot that the result of a call takes is no double of what it held before: a stub gives its second argument where
// the first one stood, and the path of the first one is lost, which no other slot has.

class F {
    void read() {}
    void close() {}
}

class Holder {
    F f;
}

final class Main {
    public static void main(String[] words) {
        Holder h = new Holder();
        F a = new F();
        F[] box = new F[1];
        if (words.length > 1) {
            // So the array may have it, for whoever does not look at the order.
            box[0] = a;
            return;
        }
        h.f = a;
        Holder g = words.length > 0 ? h : h;
        Holder i = Lib.second(h, h = g);
        box[0].close();
        a.read();
    }
}
