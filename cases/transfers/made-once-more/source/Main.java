// Where one more object is made, its local does not have the older ones: it is closed, and an older one, which an array
// holds, stays open.

class F {
    void read() {}
    void close() {}
}

final class Main {
    public static void main(String[] words) {
        F[] box = new F[1];
        F a = null;
        for (int i = 0; i < 2; i++) {
            F b = new F();
            if (a == null) {
                a = b;
                box[0] = b;
            } else {
                b.close();
                a.read();
            }
        }
    }
}
